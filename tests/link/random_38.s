# One of some hundred random programs, with the most different forms. GNU as 2.40, -march=rv64ima -mno-relax, and ld
# 2.40, by a script that lays the sections out in the order of regions, write the same bytes at the same addresses.
# text: 13147402 bb520402
# rodata: 008814e4 66450000 ffffffff 00000000 0000bcc5 867ffaf7 fc000000 00000000 08085c08 2f2ffcff ffffffff ffff
# data:
# size: 8238
# map: text 10000 10008
# map: rodata 11000 1102e
# map: data 12000 12000
# map: bss 12000 12000
# map: entry 10004
# map: global _start 10004
# map: global f_1$x 1100c
# map: global f_2$x 11020
.option norvc
slli fp, fp, ((1255)) & 63
.globl _start
_start:
divuw t0, fp, zero
.section .rodata.str,"a"
.4byte ((~0x114a125f)&(3827079198)),9*0x7b6|31>>11 / 34,_start - _start - 1
.global f_1$x
f_1$x:
.skip (6) & 15
l_4$x:
.word 3408197800105002428
.byte (f_1$x - l_4$x)%26, _start - f_1$x - 1, 0xaca455fc
0:
.zero 7
l5:
.align 0
.equ c.6, (((37648334) + ' ' + 0x135))
.global f_2$x
f_2$x:
.ascii "\b\b\\\b//"
.option nopic
.8byte ((f_1$x - l5) ^ 020)
.section .sbss,"aw",@nobits
.section zeros,"aw",@nobits
.Lf3:
