# One of some hundred random programs, with the most different forms. GNU as 2.40, -march=rv64ima -mno-relax, and ld
# 2.40, by a script that lays the sections out in the order of regions, write the same bytes at the same addresses.
# text: 9305d03f 1350a043 97c20100 23208500
# rodata:
# data: 005c235c 20233b2f 2a060000 00
# size: 8205
# map: text 10000 10010
# map: rodata 11000 11000
# map: data 11000 1100d
# map: bss 1100d 1100d
# map: entry 10000
# map: global _start 10000
.option norvc
.globl _start
_start:
l_4$x:
.equ .Lc5, 0x56a91e15
.equ .Lc5, 29 % 54 & ('9') + 0b101110000111*1520878137 - .Lc5 + 0b11010^1424-0x17/11
.section .data.x,"aw"
.p2align 3
.ascii "\0\\#"
.ascii "", "\\ #;/*"
.4byte ('0') << 7>>10
.section .data.x
.section .text
.equ .Lc5, 0xeba9a961
add a1, zero, ~(12 - 1020-14 - 30>>8) & 1023
l6:
f.1:
srai zero, zero, (.Lc5-37|.Lc5 * 7) & 63
f2:
auipc t0, (28) & 0xfffff
sw x8, (a0)
.section .bss.z,"aw",@nobits
.section .bss.z
.Lf3:
