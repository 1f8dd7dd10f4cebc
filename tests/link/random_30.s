# One of some hundred random programs, with the most different forms. GNU as 2.40, -march=rv64ima -mno-relax, and ld
# 2.40, by a script that lays the sections out in the order of regions, write the same bytes at the same addresses.
# text: 93e24f86
# rodata at 11000: 00000000 00000000 68100100 00000000 85100100 00000000 00000000 00000000
# rodata at 11020: 00000000 00000000 00000000 00000000 00000000 00000000 00000000 00000000
# rodata at 11040: 3b417a22 ff000d00 40100100 00000000 bf0f0000 00000000 00000000 000000da
# rodata at 11060: 00000000 02000000 00000000 00000000 00000000 23000000 fe50cfae
# data:
# size: 8316
# map: text 10000 10004
# map: rodata 11000 1107c
# map: data 12000 12000
# map: bss 12000 12000
# map: entry 10004
# map: global l4 11040
# map: global f1 11061
# map: global _start 10004
.option norvc
or t0, x31, -(((755) + 0b11100^0x4c3 - 014 - 0x21<<1 + 24) & 2047)
.section .rodata.str,"a"
.space 0x8
.dword 7 + f1, f1 + 36
.balign 64
.section .rodata.str
.rodata
.globl l4
l4:
.align 5
.asciz ";\x41z\"\377", "\r"
2:
.dword l4, .Lf2 - l4 - 1
.zero 7
.byte -1405106127288774132 >> 13 | 010010 - 1362665114724952932<<17,l4 - l4
.global f1
f1:
.p2align 2
.equ p_5$x, . + 0
.quad 0x2, 2235322062%2
.skip 0
.4byte 35,3786640968+~36|'9'^'A' - ~((0xcd1bc2fb))
.text
.globl _start
_start:
.section .bss
.Lf2:
.section .text
f.3:
