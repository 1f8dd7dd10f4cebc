# One of some hundred random programs, with the most different forms. GNU as 2.40, -march=rv64ima -mno-relax, and ld
# 2.40, by a script that lays the sections out in the order of regions, write the same bytes at the same addresses.
# text: 1304507d
# rodata at 11000: 00000000 00000000 00000000 20010000 5c000a2f 2f075f0d 005c0015 00000000
# rodata at 11020: 0000009b f0ffffff ffffff01 00000000 00000009 20010000 0000003b 100100ff
# rodata at 11040: ffffff06 00010009 002f2a41 30003b0a 00
# data:
# size: 8273
# map: text 10000 10004
# map: rodata 11000 11051
# map: data 12000 12000
# map: bss 12000 12000
# map: entry 10004
# map: global p3 11014
# map: global l_6$x 12000
# map: global _start 10004
.option norvc
li x8, 2005
0:
.section .rodata
.balign 8
.space 11
.rodata
.word f_1$x
.equ c2, (4695 ^ 0x10-13/52)%34
.section .rodata
.p2align 3
.globl p3
.set p3, . - 2 + 2 * 3
.equ c.4, ((20) & ('z' + 29))
l_5$x:
.string "\\", "\n//\x7_\r", "\\"
.dword c2%45, ((c.4)/14) | (2%10)&07110 ^ ~3940, c2 & (c.4 >> 1%7)
.dword _end + 9
.word .,(~10>>7)>>7,0b + 2
.asciz "\t", "/*\1010", ";\n"
.section .data.x,"aw"
.global l_6$x
l_6$x:
.text
.globl _start
_start:
.section zeros,"aw",@nobits
f_1$x:
