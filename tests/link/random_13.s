# One of some hundred random programs, with the most different forms. GNU as 2.40, -march=rv64ima -mno-relax, and ld
# 2.40, by a script that lays the sections out in the order of regions, write the same bytes at the same addresses.
# text: 13457427 97a50200 93ed059d 13e44083 13253075
# rodata: 00000000 000000ff 0f010000 00000000 00ffff2f 2f001610 01000300 0000
# data:
# size: 8222
# map: text 10000 10014
# map: rodata 11000 1101e
# map: data 12000 12000
# map: bss 12000 12000
# map: entry 10000
# map: global _start 10000
# map: global c_8$x bdd36c07e3
.option norvc
.globl _start
_start:
.section .rodata
l_4$x:
.set p.5, . + 1
.zero 7
.dword . - 8
.string "", "", "\377\377//"
.set p_6$x, .
.4byte .,f3 - _end + 3
.section .text
xor a0, fp, 631
l.7:
.globl c_8$x
.equ c_8$x, 010131 | 0x5ee9b6b9 >> 8 << 17-0b100001111100+0b101100000110 % 44
.section .rodata
.section .text
auipc a1, (22^c_8$x*2023 % 9 & 1233+0x1a) & 0xfffff
l.9:
or s11, a1, -((c_8$x<<4) & 2047)
ori x8, ra, -(((-3014/57)) & 2047)
slti a0, zero, 1875
.section .text
.Lf1:
.section .comment-y,""
.data
f.2:
.section .data
f3:
