# One of some hundred random programs, with the most different forms. GNU as 2.40, -march=rv64ima -mno-relax, and ld
# 2.40, by a script that lays the sections out in the order of regions, write the same bytes at the same addresses.
# text: 13e46002 83900d00
# rodata: de140000 00000000 00000000 000000f5 74f0df00 00000000
# data: 49080000 00000000 1b200000 00000000 00000000 00000000
# size: 12312
# map: text 10000 10008
# map: rodata 11000 11018
# map: data 12000 12018
# map: bss 12018 12018
# map: entry 10000
# map: global f1 10000
# map: global _start 10000
.option norvc
.global f1
f1:
.globl _start
_start:
ori fp, ra, (046) & 2047
.p2align 1
lh ra, (s11)
3:
.rodata
l_2$x:
.dword 847 | (0x27 >> 15)+(010617)
.skip 0x7
.set c3, (10)
.set c3, --c3 | 0x128e
.2byte 023*2323525171 - c3 ^ 8502069811440187382 - 0x135c,_etext - _end
.balign 4
.2byte ~37 / 42 | c3/58>>15
.space 0x2
.data
.equ c3, -0xeb3e1894&3931937273-020603107356 * c3+c3+~c3>>18
.dword 0x849,_edata - _start + 3
.zero (0x18) & 15
