# One of some hundred random programs, with the most different forms. GNU as 2.40, -march=rv64ima -mno-relax, and ld
# 2.40, by a script that lays the sections out in the order of regions, write the same bytes at the same addresses.
# text: 0f00f00f 93df0043 03b00d00 93950f00
# rodata: 00000000 00000000 00000000 00
# data:
# size: 8205
# map: text 10000 10010
# map: rodata 11000 1100d
# map: data 12000 12000
# map: bss 12000 12000
# map: entry 10004
# map: global _start 10004
# map: global l3 11000
# map: global l.4 11000
# map: global f1 11000
# map: global l_7$x 10004
.option norvc
fence
.equ c_2$x, 26
.globl _start
_start:
.section .srodata.x,"a"
.global l3
l3:
.global l.4
l.4:
.globl f1
.equ f1, . + 0
.zero ((29)) & 15
.set p.5, . + 1
.section .text
.set c.6, 'z'
0:
.global l_7$x
l_7$x:
sra x31, ra, (2002840918+c_2$x|c.6%45<<16) & 63
ld zero, (s11)
slli a1, x31, (((4571)^0xad4 & +c_2$x/39)) & 63
.section .sbss,"aw",@nobits
.section .comment-y,""
.globl l.8
l.8:
.half 4011>>1+c.6%42>>7>>4, +24%48 - (28) >> 12, -(0x26) & 3005 ^ 0xfd6|c_2$x*c_2$x - 3
