# One of some hundred random programs, with the most different forms. GNU as 2.40, -march=rv64ima -mno-relax, and ld
# 2.40, by a script that lays the sections out in the order of regions, write the same bytes at the same addresses.
# text: 73000000 23945d0e 1b80fffe
# rodata:
# data at 11000: 7e240322 ffffffff 79100100 00000000 07000000 00000000 08000100 00000000
# data at 11020: 7e240322 c7930442 28100100 00000000 0c000100 00000000 00000000 00000000
# data at 11040: 00000000 00000000 ff030000 00000000 00000000 00000000 00000000 00000000
# size: 8288
# map: text 10000 1000c
# map: rodata 11000 11000
# map: data 11000 11060
# map: bss 11060 11060
# map: entry 10008
# map: global _start 10008
# map: global c.4 2492492492492
# map: global f2 1000c
.option norvc
ecall
sh t0, 4 * 58(s11)
.globl _start
_start:
addiw zero, x31, -(((0x494 % 35)) & 2047)
.section .data
.globl c.4
.set c.4, ~(0b1010) & -(3724332795) + ~0x5e0*03+1308
1:
.8byte c.4,__bss_start + 25
.dword 7, _start
.4byte c.4, (c.4) - c.4 >> 17+c.4&1031 % 27*015724710217
.quad .,4 + _start,252>>9
.section .text
.section .data
.set c.4, -12 >> 11/14
l5:
.skip 0x8
.byte _start - _start - 1, l5 - l5 + 3
.equ f.1, . - 2 + 2 * 3
.zero 18
.p2align 5
.section .text.hot
.globl f2
f2:
.section .debug_x,""
.data
f_3$x:
