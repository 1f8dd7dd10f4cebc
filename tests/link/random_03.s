# One of some hundred random programs, with the most different forms. GNU as 2.40, -march=rv64ima -mno-relax, and ld
# 2.40, by a script that lays the sections out in the order of regions, write the same bytes at the same addresses.
# text: e78f30fa 832d0400 73001000 93d2bf43 b70f0200 23a6bd38 03c03204 93f5af00 1334913d 03e50200 af300410 e7059001 33340002
# rodata:
# data:
# size: 4148
# map: text 10000 10034
# map: rodata 11000 11000
# map: data 11000 11000
# map: bss 11000 11000
# map: entry 10008
# map: global _start 10008
# map: global l_4$x 10014
.option norvc
jalr t6, -93(ra)
lw s11, (s0)
.size _start, 4 + 4
.globl _start
_start:
ebreak
srai t0, x31, ((('z' | 33))) & 63
lui x31, (32) & 0xfffff
.global l_4$x
l_4$x:
.type _start, @function
sw a1, ((793370508)) & 1023(s11)
lbu zero, (3782235203) & 1023(t0)
andi a1, t6, ((0x18&0xef31b1c6 + 0x24) + -(75799508)%33) & 2047
f_1$x:
sltiu s0, sp, 985
.Ll5:
lwu a0, (t0)
lr.d ra, (x8)
jalr a1, 25(zero)
.align 0
mulhu s0, zero, zero
.section .data.x,"aw"
f.2:
.section .data.x
f.3:
