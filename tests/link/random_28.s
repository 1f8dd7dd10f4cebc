# One of some hundred random programs, with the most different forms. GNU as 2.40, -march=rv64ima -mno-relax, and ld
# 2.40, by a script that lays the sections out in the order of regions, write the same bytes at the same addresses.
# text: 03248414 93500543 1395ff03 17f05ad8
# rodata:
# data:
# size: 4112
# map: text 10000 10010
# map: rodata 11000 11000
# map: data 11000 11000
# map: bss 11000 11003
# map: entry 10004
# map: global _start 10004
# map: global c.4 42cd857f
# map: global c.5 3
# map: global f_2$x 10008
# map: global l_9$x 11000
.option norvc
lw s0, (-~1330452344181538119) & 1023(fp)
.globl _start
_start:
.equ .Lc3, '0'
.globl c.4
.set c.4, .Lc3 >> 9 + 1120765311
.globl c.5
.equ c.5, '+'
f_1$x:
sra ra, a0, (.Lc3) & 63
.global f_2$x
f_2$x:
slli a0, x31, (c.4) & 63
l_6$x:
.option push; .option pop
.Ll7:
.set c.5, 03 - 0x25>>5/50 / 6
auipc zero, (c.4 + .Lc3) & 0xfffff
.bss
.zero 0x3
.Ll8:
.data
.balign 1
.globl l_9$x
l_9$x:
