# One of some hundred random programs, with the most different forms. GNU as 2.40, -march=rv64ima -mno-relax, and ld
# 2.40, by a script that lays the sections out in the order of regions, write the same bytes at the same addresses.
# text: 33a50500 13950502 01910125 13050140 a8c1e0ff 13050100 37050000 82506780 45001385 15001305 f0fd1355 f5033325 b0003b05 b5001355 f543
# rodata: 09000100 10000100 e2ffeaff ffff
# data: 18002200 01000000 00000a10 01000000 0000
# size: 12306
# map: text 10000 1003a
# map: rodata 11000 1100e
# map: data 12000 12012
# map: bss 12012 12012
# map: entry 10004
# map: global _start 10004
# map: global l1 1000c
# map: global l2 10022
.globl _start
sltz a0, a1
_start:
zext.w a0, a1
addiw a0, a0, 0
l1:
.globl l1
addi a0, sp, 1024
.align 1
sw a0, 64(a1)
.section .text.b,"ax"
lui a0, 0
lw ra, 32(sp)
jr 4(a1)
l2:
.globl l2
addi a0, a1, 1
.text
.align 1
sd s0, 248(a5)
.option norvc
.option norvc
addi a0, sp, 0
.option norvc
.section .text.c,"ax"
li a0, -33
.align 1
srli a0, a0, 63
sgt a0, a1, zero
addw a0, a0, a1
srai a0, a0, 63
.section .rodata
.word _start + 5
.word l1 + 4
.half _start - l2
.word l1 - l2
d3:
.data
.half _etext - l2
.dword l2, d3 - 4
d4:
