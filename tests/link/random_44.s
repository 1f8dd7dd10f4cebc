# One of some hundred random programs, with the most different forms. GNU as 2.40, -march=rv64ima -mno-relax, and ld
# 2.40, by a script that lays the sections out in the order of regions, write the same bytes at the same addresses.
# text at 10000: 37f5fdff 37050080 7d353385 a5403325 b0001395 05031355 05431395 05021355
# text at 10020: 050203a5 05083335 b60033e5 a5006780 000003b4 07003305 000093d7 f7431301
# text at 10040: f10103a5 0504b7ff 0100
# rodata: baffffff 4a000100 00000000 00000100 00000000 4a000100 00000000 2e000100 00000000 32000100 00000000 00000100 00000000
# data: 00000000
# size: 12292
# map: text 10000 1004a
# map: rodata 11000 11034
# map: data 12000 12004
# map: bss 12004 12004
# map: entry 1000a
# map: global l1 10004
# map: global _start 1000a
.globl _start
lui a0, 0xfffdf
l1:
.globl l1
li a0, 0x7fffffff
_start:
.option norvc
sub a0, a1, a0
.option rvc
.option norvc
.section .text.b,"ax"
lw a0, 128(a1)
sgtu a0, a1, a2
or a0, a1, a0
jalr zero, 0(ra)
l2:
ld s0, 0(a5)
add a0, zero, zero
sra a5, a5, 63
addi sp, sp, 31
.text
.option norvc
sgtz a0, a1
sext.h a0, a1
zext.w a0, a1
.section .text.c,"ax"
lw a0, 64(a1)
.option norvc
.align 1
.option norvc
lui t6, 31
.section .rodata
.word l1 - _etext
.dword _etext, l1 - 4
.dword _etext, l2 - 4
.dword l2, l1 - 4
d3:
.data
.half l2 - l2
.balign 4
d4:
