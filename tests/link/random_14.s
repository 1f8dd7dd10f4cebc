# One of some hundred random programs, with the most different forms. GNU as 2.40, -march=rv64ima -mno-relax, and ld
# 2.40, by a script that lays the sections out in the order of regions, write the same bytes at the same addresses.
# text: 6704f402 13608101
# rodata: 20000000 00000000 2a010000 d5feffff c0b65731
# data:
# size: 8212
# map: text 10000 10008
# map: rodata 11000 11014
# map: data 12000 12000
# map: bss 12000 12000
# map: entry 10000
# map: global _start 10000
.option norvc
.globl _start
_start:
jalr x8, 47(fp)
.bss
.section code,"ax",@progbits
l_1$x:
.p2align 1
.Ll2:
or zero, sp, (24) & 2047
l3:
.section .rodata.cst8,"a",@progbits
.section code
.section .rodata.cst8
.set p.4, . - 2 + 2 * 3
.equ p.5, .
.section constants,"a"
.ascii "", " "
.skip 0x1
.balign 8
.set c.6, 298
.4byte +(((c.6))), (~c.6), 827832000
