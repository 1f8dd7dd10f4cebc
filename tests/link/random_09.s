# One of some hundred random programs, with the most different forms. GNU as 2.40, -march=rv64ima -mno-relax, and ld
# 2.40, by a script that lays the sections out in the order of regions, write the same bytes at the same addresses.
# text:
# rodata: 417a612f 2a0930
# data: 23000000 00000000 a2f3b14a 00000000 10100100 00000000 9d21618a 9ef1922e 0a00
# size: 8226
# map: text 10000 10000
# map: rodata 10000 10007
# map: data 11000 11022
# map: bss 11022 11022
# map: entry 10000
# map: global _start 10000
# map: global c3 d16d0e6176605b10
# map: global f.1 10000
.option norvc
.globl _start
_start:
.section .rodata.cst8,"a",@progbits
.ascii "\x41za/*\t0", ""
.section vars,"aw",@progbits
.quad 0x23
;
l2:
.dword 1253176226
.balign 1
.globl c3
.set c3, (0b100001-2862585810-0x235-3356010332697922287-0x1b)
.dword .,-0x97c7cf20/38^c3
.asciz "\n"
.equ c_4$x, c3
.section .comment-y,""
.half c_4$x
.skip 6
l.5:
.string "\t\t\\a", "\377~;"
l.6:
l_7$x:
.section .text
.globl f.1
f.1:
