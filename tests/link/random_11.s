# One of some hundred random programs, with the most different forms. GNU as 2.40, -march=rv64ima -mno-relax, and ld
# 2.40, by a script that lays the sections out in the order of regions, write the same bytes at the same addresses.
# text: 937fe429 b3b21d02 830fc40f 93129003
# rodata:
# data:
# size: 4112
# map: text 10000 10010
# map: rodata 11000 11000
# map: data 11000 11000
# map: bss 11000 11018
# map: entry 10000
# map: global _start 10000
.option norvc
.globl _start
_start:
andi t6, s0, ~(-(027172743237)) & 1023
mulhu t0, s11, ra
.equ .Lc1, 07337
.set .Lc1, ~((.Lc1) & .Lc1)
.ident "x"
lb x31, 4 * 63(fp)
.equ .Lc1, ~'~'^0x984+037775417123 + (~0b110) % 27
sll t0, zero, ('9') & 63
.section .debug_x,""
.section .comment-y,""
.4byte ((.Lc1)), .Lc1 | 31 * .Lc1, (~.Lc1)
.2byte 'A',17
.zero 0x6
.text
.bss
.skip 0x5
.skip (9 - (874728055 >> 9)) & 15
.section .bss
.zero (-1494 / 38>>9) & 15
