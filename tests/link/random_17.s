# One of some hundred random programs, with the most different forms. GNU as 2.40, -march=rv64ima -mno-relax, and ld
# 2.40, by a script that lays the sections out in the order of regions, write the same bytes at the same addresses.
# text: 13559400 9b927f00
# rodata:
# data: 2b030000 00000800 0100
# size: 8202
# map: text 10000 10008
# map: rodata 11000 11000
# map: data 11000 1100a
# map: bss 1100a 1100a
# map: entry 10000
# map: global l_4$x 10000
# map: global _start 10000
# map: global c7 0
.option norvc
.global l_4$x
l_4$x:
.align 0
l_5$x:
.globl _start
_start:
l_6$x:
.globl c7
.equ c7, 2627378422%19>>7
srli a0, x8, (9) & 63
.data
f1:
l8:
.byte '+',l8 - l8 + 3
l.9:
.4byte ((f1 - f1)), f.2
.Ll10:
.set c7, c7 * -(l.9 - l.9)
.section .text.b,"ax"
slliw t0, x31, (536898679 + ('0')) & 31
f.2:
f3:
.balign 2
