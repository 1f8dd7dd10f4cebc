# One of some hundred random programs, with the most different forms. GNU as 2.40, -march=rv64ima -mno-relax, and ld
# 2.40, by a script that lays the sections out in the order of regions, write the same bytes at the same addresses.
# text: 939fcf01
# rodata:
# data: 05000000 00000000 51000000 00000000 c50f0100 05001500
# size: 8216
# map: text 10000 10004
# map: rodata 11000 11000
# map: data 11000 11018
# map: bss 11040 11091
# map: entry 10004
# map: global l6 1104d
# map: global _start 10004
# map: global f2 11018
.option norvc
.set c_4$x, -0xf%15|((011047 & 0x15))
slli x31, t6, (0x386bc8dc) & 63
.section .data.y
.dword c_4$x,f.3 - __bss_start
.word _edata - 83
.2byte c_4$x, 21
.set c_5$x, ~c_4$x + +31-c_4$x ^ c_4$x + c_4$x
.section .comment-y,""
.2byte ~4541 << 19%33%28
.p2align 5
.bss
.balign 8
.set c_4$x, -361777245 << 3>>9 & 1541376127
.p2align 4
.space 13
.global l6
l6:
.balign 1 << 6
.p2align 5
.space 0x3
.space ((c_5$x)) & 15
.text
.globl _start
_start:
.section .sbss,"aw",@nobits
f_1$x:
.section vars,"aw",@progbits
.globl f2
f2:
.bss
f.3:
