# One of some hundred random programs, with the most different forms. GNU as 2.40, -march=rv64ima -mno-relax, and ld
# 2.40, by a script that lays the sections out in the order of regions, write the same bytes at the same addresses.
# text: 23b0b201
# rodata: 09232f2f
# data: 00000000 00000a00 2a620300 0ef8
# size: 12302
# map: text 10000 10004
# map: rodata 11000 11004
# map: data 12000 1200e
# map: bss 1200e 1200e
# map: entry 10004
# map: global _start 10004
.option norvc
3:
.section .note.x,"",@note
.space 1
.section .data
.zero ('A' % 18 + -~'z' * (0x26)>>9+18&~0x6598a565) & 15
.string "\n"
.2byte 3001809105285767722,.Lf2 - f.1 + 3,f.1 - __global_pointer$
.rodata
.ascii "\t#//", "", ""
.section .text
sd s11, (t0)
.globl _start
_start:
.bss
.section .note.x
.string "0"
.equ c3, 024 - (0x7ab)<<17
.skip 0x0
.skip (-0xf-(0x7b8106d18a836803)-c3) & 15
.globl l4
l4:
.equ c.5, (c3)
.data
f.1:
.section .debug_x,""
.data
.Lf2:
