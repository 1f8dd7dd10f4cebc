# One of some hundred random programs, with the most different forms. GNU as 2.40, -march=rv64ima -mno-relax, and ld
# 2.40, by a script that lays the sections out in the order of regions, write the same bytes at the same addresses.
# text: 9382b55b 9345e42b 9b55e500 8320943f 73000000
# rodata:
# data: 00000000 c5d63195 634cede7 f8efffff
# size: 8208
# map: text 10000 10014
# map: rodata 11000 11000
# map: data 11000 11010
# map: bss 11010 11010
# map: entry 10008
# map: global _start 10008
.option norvc
add t0, a1, 1467
xor a1, x8, ~(-(0b111010101111 | 17)) & 1023
.globl _start
_start:
.section .text.hot
.section .text
srliw a1, a0, ((1982385741)>>17&18 ^ 24 - +0x9ea<<17>>19) & 31
lw ra, (-5-((0b10010) & 14)) & 1023(x8)
ecall
.balign 2
.section .debug_x,""
.string " \0\t\r", "\101Q ;a", "~0"
.dword +0x22 + +7361803712798393402, ((+1012-3643710714))
.word 1
.balign 16
.section .text
.section .sdata
.set c1, 8629207852767103221
.word _start - _start
.4byte 0 | ((0xdd0+c1)),(c1) + c1|(c1) ^ 0x9 >> 12 + c1*c1,_start - _end
.balign 16
