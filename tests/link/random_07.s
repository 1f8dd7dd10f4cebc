# One of some hundred random programs, with the most different forms. GNU as 2.40, -march=rv64ima -mno-relax, and ld
# 2.40, by a script that lays the sections out in the order of regions, write the same bytes at the same addresses.
# text: 23348494 1345f1e0 935dc041 1304c07d
# rodata:
# data: cdffcdff 1c52cdef ffff6a05 0900a034 ae021000 01000000 00000000 00000000 00000000 00000000 00000000 00000000 00000000 0000
# size: 8246
# map: text 10000 10010
# map: rodata 11000 11000
# map: data 11000 11036
# map: bss 11036 11036
# map: entry 10000
# map: global _start 10000
# map: global c.3 7b2
# map: global l.4 11024
.option norvc
.globl _start
_start:
sd fp, -1720(s0)
xor a0, sp, -((0xa | 5204051269114141848^12+0x55f-(2731%27)) & 2047)
sra s11, zero, (2652) & 63
li s0, 2012
# a comment ; "
.size _start, 4 + 4
.data
.equ f1, .
.half f1 - __bss_start + 3, f1 - _edata + 3, (040 + (3223658440)/16)
.4byte _start - _edata + 3, '0' | (0xb7a)^1159<<9 - 03045 / 47 / 2, (1978731401) / 44
.quad _etext
.set p.2, . + 1
.balign 1
.zero (1325 ^ +2823|(24)<<17) & 15
.section .text
.section .sdata
.globl c.3
.set c.3, +1971 & 2826397909 / 54+' '
.globl l.4
l.4:
.space 18
