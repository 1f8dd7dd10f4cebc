# One of some hundred random programs, with the most different forms. GNU as 2.40, -march=rv64ima -mno-relax, and ld
# 2.40, by a script that lays the sections out in the order of regions, write the same bytes at the same addresses.
# text: 974de100
# rodata:
# data: 27f8ffe3 eff9ff00 23203000 5c510d00 00000000 00000000 00000000 00000000 06180100
# size: 8228
# map: text 10000 10004
# map: rodata 11000 11000
# map: data 11000 11024
# map: bss 11024 11024
# map: entry 10000
# map: global _start 10000
# map: global l.1 10004
.option norvc
.globl _start
_start:
auipc s11, (3604) & 0xfffff
.global l.1
l.1:
.section .debug_x,""
.zero 0x3
.p2align 1
.option push; .option pop
.section vars,"aw",@progbits
.2byte __bss_start - __global_pointer$ + 3
.byte _start - _start - 1
.half _etext - __bss_start + 3, (-3909/49)%12
.p2align 3
.string "# 0", "\\Q\r"
.balign 1 << 5
.word 6 + __global_pointer$
.section .debug_x
.set .Lc2, +(030)
.4byte 0x3d63c0f29071fa2a
.globl l3
l3:
.equ .Lc2, -0x0
