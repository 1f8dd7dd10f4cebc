# One of some hundred random programs, with the most different forms. GNU as 2.40, -march=rv64ima -mno-relax, and ld
# 2.40, by a script that lays the sections out in the order of regions, write the same bytes at the same addresses.
# text: 1305c0ef 83100400 13847f27
# rodata: 01100100 00000000 ad1f0100 00000000 a9f09424 00000000
# data:
# size: 8216
# map: text 10000 1000c
# map: rodata 11000 11018
# map: data 12000 12000
# map: bss 12000 12000
# map: entry 10000
# map: global c4 1174
# map: global _start 10000
# map: global l7 1000c
.option norvc
.globl c4
.equ c4, 4468
.section .srodata.x,"a"
.p2align 5
.8byte 1 + .,_end - 83,(-c4<<2 + 1728|613761965 - c4)
.equ .Lc5, ~((c4)-2172577512+c4)
.balign 4
l_6$x:
.text
.globl _start
_start:
li a0, -260
lh ra, (fp)
.p2align 1
add s0, t6, 631
.section .text.b,"ax"
.global l7
l7:
.section .rodata
.zero (-(c4)*636) & 15
l_8$x:
.set .Lc5, (((36)))
.section .srodata.x
.section .text
f.1:
.section vars,"aw",@progbits
.Lf2:
.bss
f.3:
