# One of some hundred random programs, with the most different forms. GNU as 2.40, -march=rv64ima -mno-relax, and ld
# 2.40, by a script that lays the sections out in the order of regions, write the same bytes at the same addresses.
# text:
# rodata: 003000
# data:
# size: 4099
# map: text 10000 10000
# map: rodata 10000 10003
# map: data 11000 11000
# map: bss 11000 11030
# map: entry 10000
# map: global _start 10000
# map: global c.6 3a1082453e00304c
.option norvc
.globl _start
_start:
2:
.set c4, 8700373625888150927
.Ll5:
.balign 2
.bss
.type _start, @function
.globl c.6
.equ c.6, (c4) ^ c4 - c4 << 3 ^ 0x4d8f3088 >> 10
.zero (c.6) & 15
.zero 6
.skip (~011+0x1e>>1 / 5) & 15
.space ((c.6)) & 15
.skip 9
.rodata
.set c_7$x, (06166745706 >> 8-~0x1) << 1
.set c_7$x, c.6
.balign 1
2:
f1:
.asciz "", "0"
.section .rodata.str,"a"
f.2:
.data
.Lf3:
