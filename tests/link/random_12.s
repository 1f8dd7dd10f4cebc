# One of some hundred random programs, with the most different forms. GNU as 2.40, -march=rv64ima -mno-relax, and ld
# 2.40, by a script that lays the sections out in the order of regions, write the same bytes at the same addresses.
# text: 1374a401 13f12f78 b38f8f40 03312499 03350500
# rodata at 11000: 04e0ffff ffffffff 0f000000 00000000 14e0ffff ffffffff 4161080a 00417a07
# rodata at 11020: 5f002f2a 00000000 00000000 00000000 03000000 c50c200d 93f0fc3f 100100fb
# rodata at 11040: efffff00 00fb1ffb ff
# data:
# size: 8265
# map: text 10000 10014
# map: rodata 11000 11049
# map: data 12000 12000
# map: bss 12000 12000
# map: entry 10004
# map: global _start 10004
# map: global c.1 ffffffffffffffec
# map: global l.2 11018
.option norvc
andi s0, x8, (26) & 2047
.globl _start
_start:
and sp, x31, 1922
.p2align 1
sub t6, t6, s0
ld sp, -1646(s0)
.globl c.1
.equ c.1, -0b10100
ld a0, (a0)
.section constants,"a"
.quad _start - _edata,+((0b100011) + c.1),_etext - __bss_start
.globl l.2
l.2:
.string "\101a\b\n", "\x41z\x7_\0/*"
.balign 16
.half _edata - _end + 3,34&(0x5),3307-~~36 | +2
.ascii " \r"
.byte ~'~' - 1642|c.1, _start - _etext, _end - _start
/* over */
0:
.word . + 4,_etext - l.2 - 1
.2byte l.2 - l.2,_end - _start - 1,c.1>>2
