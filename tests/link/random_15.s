# One of some hundred random programs, with the most different forms. GNU as 2.40, -march=rv64ima -mno-relax, and ld
# 2.40, by a script that lays the sections out in the order of regions, write the same bytes at the same addresses.
# text:
# rodata: 01fe09e4 20000000 7e0c2f2a 2f2a2f2f 2f2f0996 0e000000 00000022 0890a5ba 2d010000 003d1300 00000000 00031000 0055f501 00417a00 00
# data:
# size: 4153
# map: text 10000 10000
# map: rodata 10000 10039
# map: data 11000 11000
# map: bss 11000 11040
# map: entry 10000
# map: global _start 10000
# map: global l_2$x 10008
# map: global l_3$x 11008
.option norvc
.globl _start
_start:
.rodata
.4byte 0xe409fe01, ' '
.global l_2$x
l_2$x:
f1:
.section .sbss,"aw",@nobits
.skip (0x18-'+'^0x1d&0x122>>15) & 15
.global l_3$x
l_3$x:
.zero 2
.balign 64
.section .rodata
.ascii "~\f/*", "/*", "////\t"
.quad ((l_2$x - f1)) + -24-1105+(f1 - f1) ^ 4863
l.4:
.ascii "\"\b"
.8byte -(~0x12dbaa58) << 4, +0x133d
.word _edata - _etext + 3, +(0x891) ^ 0x10fe * 0b11110
.asciz "\x41z"
.space (-39 & 21 % 31 * (l_2$x - l.4)) & 15
.ident "x"
