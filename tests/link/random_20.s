# One of some hundred random programs, with the most different forms. GNU as 2.40, -march=rv64ima -mno-relax, and ld
# 2.40, by a script that lays the sections out in the order of regions, write the same bytes at the same addresses.
# text:
# rodata: 0d200000 00000002 000100a6 33a22503 00000000 0000004e 66a97900 00000004 00000000 00000000 00080d3b 2000
# data: 0000002f 2a0c3b2f 2f5cff30
# size: 8204
# map: text 10000 10000
# map: rodata 10000 1002e
# map: data 11000 1100c
# map: bss 1100c 1100c
# map: entry 10000
# map: global _start 10000
# map: global f_2$x 1100c
.option norvc
.set c.4, 01624&0x27&(' ' ^ 2801352757818828260)
.p2align 1
.globl _start
_start:
.section .rodata-z,"a"
.ascii "\r ", ""
.skip (9 ^ 05514) & 15
.word 2 + _start,631387046
3:
.dword _start - _start + 3, 017152263116, (c.4)
.string "", "", "\b\r; "
.section .rodata-z
2:
.section .comment-y,""
.equ .Lc5, 4148762962 - (1954218574) * 0x23
.section vars,"aw",@progbits
.size _start, 4 + 4
.2byte _start - _start
.section vars
.equ .Lc5, (763%13+(c.4)*0x12261128)
.ascii "\0/*\f;", "//\\\3770"
.section vars
f_1$x:
.section zeros,"aw",@nobits
.globl f_2$x
f_2$x:
.data
.Lf3:
