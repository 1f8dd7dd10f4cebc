# One of some hundred random programs, with the most different forms. GNU as 2.40, -march=rv64ima -mno-relax, and ld
# 2.40, by a script that lays the sections out in the order of regions, write the same bytes at the same addresses.
# text: 9b9f4d00 b74248b4 73000000 3b548402
# rodata at 11000: 3e000000 00000000 3f200100 00000000 39000000 00000000 30202300 2f2a0a3b
# rodata at 11020: 0036ff00 00000000 00000000 00000000 20302200 00000000 00000000 00000000
# rodata at 11040: 00000000
# data:
# size: 8260
# map: text 10000 10010
# map: rodata 11000 11044
# map: data 12000 12000
# map: bss 12000 12000
# map: entry 10000
# map: global _start 10000
# map: global f_1$x 1000c
# map: global c4 39
# map: global l6 11030
.option norvc
.globl _start
_start:
slliw x31, s11, ((04174+14&8) + (2>>8&0x17)) & 31

lui t0, (~(250493707190487798)*0b11101/43) & 0xfffff
.section .text
ecall
.global f_1$x
f_1$x:
divuw fp, x8, x8
.globl c4
.set c4, '9'
.section .srodata.x,"a"
.Ll5:
.quad 0x3e, __bss_start + 63, +c4
.asciz "0 #", "/*\n;"
0:
.half -c4 << 5/9
.zero (c4 ^ ~35 - c4<<3) & 15
.globl l6
l6:
.asciz " 0\""
.dword (l6 - l6), 0
.set c_7$x, (((c4))-132 % 55)
.section .srodata.x
f_2$x:
.data
.Lf3:
