# One of some hundred random programs, with the most different forms. GNU as 2.40, -march=rv64ima -mno-relax, and ld
# 2.40, by a script that lays the sections out in the order of regions, write the same bytes at the same addresses.
# text: 13140002 e702d4ff 73000000 1b010121
# rodata:
# data:
# size: 4112
# map: text 10000 10010
# map: rodata 11000 11000
# map: data 11000 11000
# map: bss 11000 11000
# map: entry 10000
# map: global _start 10000
# map: global f_1$x 1000c
# map: global c.4 32
.option norvc
.globl _start
_start:
slli fp, zero, (4407018014008902880) & 63
jalr t0, -3(fp)
ecall
3:
.globl f_1$x
f_1$x:
.set c3, (0x12) + (((2755016157)))
addiw sp, sp, ~(c3) & 1023
.section .note.x,"",@note
.balign 1 << 6
.globl c.4
.set c.4, 'z' % 16&'~' & 'a'%39 + '0'
.8byte ((+0b11 - '+')), c.4 ^ c3+c.4 | 01 - c3
.equ .Lc5, ((((c.4))))
.dword (~0x1ca)
.asciz "#\"~\b", "\377Q0/*\x7_"
.2byte +c.4*.Lc5 & c.4>>16/23, c3
l.6:
.global l.7
l.7:
.skip ((l.7 - l.7)) & 15
.section .text
.bss
.Lf2:
