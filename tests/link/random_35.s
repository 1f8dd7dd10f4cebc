# One of some hundred random programs, with the most different forms. GNU as 2.40, -march=rv64ima -mno-relax, and ld
# 2.40, by a script that lays the sections out in the order of regions, write the same bytes at the same addresses.
# text: 03540000
# rodata:
# data at 11000: 00e8ffff fdffffff ffffffff fbb90300 00000000 00000000 000010bb 07000a00
# data at 11020: 0000009d e4050000 00271001 002d1001 00000000 00000000 00000000 00251001
# data at 11040: 00000000 00
# size: 8261
# map: text 10000 10004
# map: rodata 11000 11000
# map: data 11000 11045
# map: bss 11045 11045
# map: entry 10000
# map: global _start 10000
# map: global f1 11000
.option norvc
.globl _start
_start:
lhu x8, (zero)
.section .sdata
.globl f1
f1:
.4byte _start - __global_pointer$
.8byte ~2,0x107b^0xa03 >> 3 | 06201*0b1001011
.skip 0x5
.half f1 - _start,__global_pointer$ - _end
.equ .Lc4, ' '/6
.2byte 0xa00
.option nopic
.space 4
.2byte ' ' - 0353 << 13 + -0x20 ^ 1977531293
0:
.word .Lc4,0b + 2
.Ll5:
.space ((~31)) & 15
.equ c.6, 2224
.data
.quad .,.Ll5 - .Ll5,0b
.section .rodata.str,"a"
f.2:
.section .note.x,"",@note
.data
f3:
