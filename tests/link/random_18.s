# One of some hundred random programs, with the most different forms. GNU as 2.40, -march=rv64ima -mno-relax, and ld
# 2.40, by a script that lays the sections out in the order of regions, write the same bytes at the same addresses.
# text: 03b10200
# rodata:
# data: 00510c02 f807
# size: 8198
# map: text 10000 10004
# map: rodata 11000 11000
# map: data 11000 11006
# map: bss 11008 11008
# map: entry 10004
# map: global _start 10004
# map: global l.4 11003
# map: global f.2 10004
# map: global f_3$x 10000
.option norvc
.section .text.b,"ax"
.section .text.b
ld sp, (t0)
.globl _start
_start:
.section .sdata
.align 5
.ascii "\0Q\f", ""
2:
.globl l.4
l.4:
.byte l.4 - _start + 3, ~7 + +7 << 11<<16, __bss_start - _start + 3
.section .comment-y,""
.asciz "\b~", "\377", "0~a"
.string "\f~\"\r", "", "/*"
.2byte 0x26 ^ (8170524448546066160) + (0b110110001) % 8
.word 2042279047086282662, 1
.section .comment-y
.set .Lc5, 0b10001-0x8<<1>>10
.section .bss
.balign 1 << 2
f_1$x:
.section .text.hot
.globl f.2
f.2:
.section .text
.globl f_3$x
f_3$x:
