# One of some hundred random programs, with the most different forms. GNU as 2.40, -march=rv64ima -mno-relax, and ld
# 2.40, by a script that lays the sections out in the order of regions, write the same bytes at the same addresses.
# text: 937d85f4 03d00f2d 17440b00 0f001003 9302b034
# rodata: 0000080d 075f0007 5f08303b 00612f2f 205c00
# data: 04200100 1faa1f00 e7dfd0ff 000007e0 ffffff30 303b222f 2a080007 5f
# size: 12317
# map: text 10000 10014
# map: rodata 11000 11013
# map: data 12000 1201d
# map: bss 1201d 1201d
# map: entry 10004
# map: global _start 10004
# map: global c2 b4
# map: global f1 1201d
.option norvc
and s11, a0, -((3972 - 37+20/3 + 19 - 014745407300) & 2047)
.globl _start
_start:
lhu zero, (++0x7c7 >> 7+0xac1) & 1023(t6)
.globl c2
.equ c2, 3438 / 19
auipc x8, (+c2) & 0xfffff
fence rw, w
addi t0, zero, ~(c2) & 1023
.section vars,"aw",@progbits
.Ll3:
.4byte . + 4
.half 2009770527,'A'%34%57,_start - f1
.word _start - 52,_start - .Ll3 + 3
.ascii "\3770", "0;", "\"/*\b\0\x7_"
.section .text.hot
.equ c4, ((0b110100011100)) << 13*((c2)^c2)
.section .rodata-z,"a"
.byte +('~' % 33)%9
.set c4, (~c4-c4 % 2) / 35
.p2align 1
.string "\b\r\x7_", "\x7_\b0;", "a// \\"
.data
.globl f1
f1:
