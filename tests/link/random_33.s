# One of some hundred random programs, with the most different forms. GNU as 2.40, -march=rv64ima -mno-relax, and ld
# 2.40, by a script that lays the sections out in the order of regions, write the same bytes at the same addresses.
# text: 3300b441 73000000 93c5057e 8325c5a6 93e59f89
# rodata:
# data: 00000000 00000000 00000000 00000000 00000000 00000000 00000000 00000000 edff0600 e1fffe0f 01000000 0000fd06 5b577d3d ef3c
# size: 8246
# map: text 10000 10014
# map: rodata 11000 11000
# map: data 11000 11036
# map: bss 11036 11036
# map: entry 10000
# map: global _start 10000
# map: global l_8$x 11026
# map: global f3 11036
.option norvc
l.4:
.globl _start
_start:
sub zero, fp, s11
ecall
xori a1, a1, (~0x1f) & 2047
lw a1, -1428(a0)
or a1, t6, -1895
.section .data
.equ f.1, . - 2 + 2 * 3
.skip 5
.p2align 5
.Ll5:
.set .Lp6, . - 2 + 2 * 3
.section .data
.space (0b110000110000 + (3301^181853237)) & 15
.2byte .Lp6 - f3 - 1,(38-0x26247dbe % 57),(-(31)) - '~'>>12
.equ c7, '+'/24
.global l_8$x
l_8$x:
.type _start, @function
.quad f2 - 56,(4390795770255312637)
.section .sbss,"aw",@nobits
f2:
.section .data.x,"aw"
.globl f3
f3:
