# One of some hundred random programs, with the most different forms. GNU as 2.40, -march=rv64ima -mno-relax, and ld
# 2.40, by a script that lays the sections out in the order of regions, write the same bytes at the same addresses.
# text:
# rodata at 10000: 1a100100 03f0ffff a7cec3f4 36000000 02000000 00000000 00000000 00000000
# rodata at 10020: 08000000 00000000 00000000 00000000 00000000 0000003a fe94c400 00000037
# rodata at 10040: 00010000 00000000 18010000 0000003a 0340
# data:
# size: 4178
# map: text 10000 10000
# map: rodata 10000 10052
# map: data 11000 11000
# map: bss 11000 11000
# map: entry 10000
# map: global _start 10000
# map: global l.3 10014
# map: global c.4 c494fe3a
# map: global f.1 10037
.option norvc
.globl _start
_start:
.section .bss.z,"aw",@nobits
l2:
.section .sbss,"aw",@nobits
.section .rodata.cst8,"a",@progbits
.word l2 + 26, _start - l2 + 3
.4byte (37^~4960699743842921712+0x715af83a49e4bb7d), f.1 - _start - 1, 02
.size _start, 4 + 4
.globl l.3
l.3:
.balign 32
.quad (1350011744%27 * 28 & 2545)/25
2:
.globl c.4
.equ c.4, 0x19 + 3288172223 ^ 0xc % 15 ^ (4103637726 / 33)
.zero (36%21) & 15
3:
.global f.1
f.1:
.8byte c.4,3b,__global_pointer$
.section .srodata.x,"a"
.byte f.1 - _etext + 3
.byte _start - _etext + 3,8379180686271760121 << 6
