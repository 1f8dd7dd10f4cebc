# One of some hundred random programs, with the most different forms. GNU as 2.40, -march=rv64ima -mno-relax, and ld
# 2.40, by a script that lays the sections out in the order of regions, write the same bytes at the same addresses.
# text:
# rodata at 10000: 00000000 00000000 00000000 00000000 00000000 00001a00 01000000 00004000
# rodata at 10020: 00000000 00002700 01000000 0000cbff 00000000 00001400 00000000 000000d8
# rodata at 10040: 3f000100 00000000 00000100 00000000 03000000 00000000 09ff0000 00000000
# rodata at 10060: 22000000 00000000 00000000 00000000 003e0000 00
# data:
# size: 4213
# map: text 10000 10000
# map: rodata 10000 10075
# map: data 11000 11000
# map: bss 11000 11000
# map: entry 10000
# map: global l2 10000
# map: global _start 10000
.option norvc
.rodata
.global l2
l2:
.zero 0x1
.balign 16
.section .rodata
.skip 0x6
.quad . + 4,~(-('A'))
.dword 1 + .,l2 - 53,20
f_1$x:
l_3$x:
.2byte 037461203540<<6
.dword 1 + l_3$x, l2, __bss_start - _edata + 3
.equ p_4$x, . + 1
.string "\t\377"
.p2align 5
.section .rodata
.Ll5:
.half .Ll5 - l_3$x
.zero (~(+020)) & 15
.4byte (l_3$x - l2)
.text
.globl _start
_start:
