# One of some hundred random programs, with the most different forms. GNU as 2.40, -march=rv64ima -mno-relax, and ld
# 2.40, by a script that lays the sections out in the order of regions, write the same bytes at the same addresses.
# text: 13950502 01911305 00fe3705 feff03a5 25001525 03a5c507 2330f101 13550500 feff4800 13550500 13581840
# rodata: 04000100 01000100 2c00
# data: 12000000 00002200
# size: 12296
# map: text 10000 1002c
# map: rodata 11000 1100a
# map: data 12000 12008
# map: bss 12008 1200e
# map: entry 10000
# map: global _start 10000
# map: global l3 1000e
# map: global l5 1001c
.globl _start
l1:
_start:
zext.w a0, a1
.option norvc
.align 1
.option norvc
li a0, -32
l2:
lui a0, 0xfffe0
l3:
.globl l3
.section .text.b,"ax"
lw a0, 124(a1)
.option norvc
sd t6, 0(sp)
.text
.option push
lw a0, 2(a1)
l4:
.option rvc
addw a0, a0, 5
.section .text.c,"ax"
l5:
.globl l5
.option push
srli a0, a0, 0
sd t6, 504(sp)
addi a0, sp, 4
.option norvc
srli a0, a0, 0
srai a6, a6, 1
.section .rodata
.word _start + 4
.word l1 + 1
.half _etext - l1
d6:
.data
.half l5 - l2
.word l3 - l3
.half _etext - l2
.balign 4
d7:
.bss
.zero 6
