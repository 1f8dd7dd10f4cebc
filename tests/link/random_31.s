# One of some hundred random programs, with the most different forms. GNU as 2.40, -march=rv64ima -mno-relax, and ld
# 2.40, by a script that lays the sections out in the order of regions, write the same bytes at the same addresses.
# text:
# rodata: 6d000000 00000000 00000000 00000000 00000000 00000000 00000000 00000000 200a0000 de490001 00061000 00000000
# data: f00b1c00 1a00
# size: 8198
# map: text 10000 10000
# map: rodata 10000 10030
# map: data 11000 11006
# map: bss 11006 1101d
# map: entry 10000
# map: global l_4$x 1101d
# map: global _start 10000
# map: global f.1 10030
.option norvc
.rodata
.balign 32
.byte -~(3370311386) * +27 / 54
.p2align 5
.4byte 114947967046406819>>15 & 0xa24
.byte ~(33 % 50%44)
.word _etext + 73,_edata - f.2
.Ll3:
.balign 4
.section zeros,"aw",@nobits
.data
.bss
.zero 0x4
.zero (2786721341) & 15
.space 0x6
.global l_4$x
l_4$x:
2:
1:
.data
.2byte 3056, (28), l_4$x - _edata + 3
.text
.globl _start
_start:
.section .rodata.str,"a"
.globl f.1
f.1:
.section .text
f.2:
