# One of some hundred random programs, with the most different forms. GNU as 2.40, -march=rv64ima -mno-relax, and ld
# 2.40, by a script that lays the sections out in the order of regions, write the same bytes at the same addresses.
# text: afa08f04 73000000 bbdf1f02 930250d5 37a40350 13e40dfe e78fdffb 6784ad03 1354f042 9bdf2200 9b123101 1b817f3e 13446017
# rodata:
# data:
# size: 4148
# map: text 10000 10034
# map: rodata 11000 11000
# map: data 11000 11000
# map: bss 11000 11000
# map: entry 10004
# map: global _start 10004
# map: global c_4$x 4657cc87c83472af
.option norvc
amoadd.w.aq ra, x8, (t6)
.globl _start
_start:
ecall
divuw t6, t6, ra
li t0, -683
lui s0, ((~10<<16|26 | 16<<1)) & 0xfffff
or s0, s11, -((' ') & 2047)
.option nopic
jalr t6, -67(x31)
.globl c_4$x
.set c_4$x, (0x4657cc87c8347def)^0xf40
jalr s0, 58(s11)
.section code,"ax",@progbits
srliw x31, t0, ((2)) & 31
slliw t0, sp, (0b110111001001/44 - (0x2c2 | c_4$x) ^ ((3026))) & 31
addiw sp, t6, ~(21^0xd%28) & 1023
xori s0, zero, ~(0x4ca4370709fbee89) & 1023
.section .debug_x,""
.quad 37, (c_4$x)
.section .text
srai fp, zero, (c_4$x-3361073417<<17 * 0x39cc1e39*(37118164)) & 63
.section .sbss,"aw",@nobits
.Lf1:
.section constants,"a"
.Lf2:
.section constants
f3:
