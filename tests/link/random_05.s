# One of some hundred random programs, with the most different forms. GNU as 2.40, -march=rv64ima -mno-relax, and ld
# 2.40, by a script that lays the sections out in the order of regions, write the same bytes at the same addresses.
# text: 13b5608c 931d4402 13546003
# rodata:
# data:
# size: 4108
# map: text 10000 1000c
# map: rodata 11000 11000
# map: data 11000 11000
# map: bss 11000 11004
# map: entry 1000c
# map: global l.3 10004
# map: global _start 1000c
# map: global c6 1b0535ad
# map: global c7 a8261330
.option norvc
sltiu a0, ra, -((0x57e18419 + (0b101100100001)) & 2047)
.global l.3
l.3:
.equ c4, -3276^2058 % 54/30
slli s11, fp, ((--c4&175)) & 63
srli fp, zero, (c4 ^ c4<<17 - 8007510310651077603^c4-27+c4) & 63
.globl _start
_start:
l_5$x:
.globl c6
.equ c6, 13
.align 0
.section .bss.z,"aw",@nobits
.space 4
.globl c7
.equ c7, 2821067568

.set c6, (030312644335 + -c7) + (0x1a&34 << 10)
.space 0x0
.section .comment-y,""

;
.section zeros,"aw",@nobits
.section zeros
.rodata
f1:
.section .rodata.str,"a"
f_2$x:
