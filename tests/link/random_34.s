# One of some hundred random programs, with the most different forms. GNU as 2.40, -march=rv64ima -mno-relax, and ld
# 2.40, by a script that lays the sections out in the order of regions, write the same bytes at the same addresses.
# text: 13e44d29 83efa522
# rodata:
# data at 11000: 00000000 00000000 00080001 00080001 00000000 00000000 00000000 00000000
# data at 11020: 00000000 2b0e2200 00000030 2f2a2f2a 00417a23 2f2f2f2f 0000517e 2f2f2f2f
# data at 11040: 00ceffff ffffffff ff
# size: 8265
# map: text 10000 10008
# map: rodata 11000 11000
# map: data 11000 11049
# map: bss 11049 11056
# map: entry 10008
# map: global _start 10008
# map: global l.4 11000
# map: global f.1 11024
.option norvc
or fp, s11, 660
lwu x31, 554(a1)
.globl _start
_start:
3:
.data
.global l.4
l.4:
.zero ('9') & 15
.4byte 3b, 3b
.space 19
.globl f.1
f.1:
.half 07053, 34, -(f.1 - f.1) >> 5 / 39
.skip 1
.asciz "0/*/*", "\x41z#////", "\0Q~////"
/* over */
l5:
.section .data.x,"aw"
.dword f.1 - .Lf3
l6:
.section .bss.z,"aw",@nobits
.space (0b1101 % 52) & 15
.section .text
.Lf2:
.bss
.Lf3:
