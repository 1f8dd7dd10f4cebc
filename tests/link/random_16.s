# One of some hundred random programs, with the most different forms. GNU as 2.40, -march=rv64ima -mno-relax, and ld
# 2.40, by a script that lays the sections out in the order of regions, write the same bytes at the same addresses.
# text: 93d53503 93855022 1b55a040 2303a418 1304d00e 93cf9227
# rodata:
# data:
# size: 4120
# map: text 10000 10018
# map: rodata 11000 11000
# map: data 11000 11000
# map: bss 11000 11006
# map: entry 10004
# map: global _start 10004
# map: global f.1 1000c
.option norvc
srli a1, a1, (21 << 14-(0x18 & 032-11)) & 63
.globl _start
_start:
add a1, ra, ((3688485413)) & 2047
sraiw a0, zero, (4714) & 31
2:
.globl f.1
f.1:
.equ c.3, 02420-4120098600/54
3:
/* over */
sb a0, ((c.3 ^ 0b1110/30 % 13)) & 1023(s0)
.balign 2
li s0, 237
xori t6, t0, ~(c.3) & 1023
.ident "x"
.section .sbss,"aw",@nobits
.ident "x"
.balign 1 << 3
l_4$x:
.skip (c.3) & 15
.zero 0x0
.section .sbss
f.2:
