# Statements of several instructions, the same line with and without compressed code, places behind an odd number of
# parcels; by hand from docs/manual/files.md.
# data: 2600 0200
# map: rvmap 1
# map: text 10000 1002a
# map: rodata 11000 11000
# map: data 11000 11004
# map: bss 11004 11004
# map: entry 10026
# map: global _start 10026
# map: global _etext 1002a
# map: global __bss_start 11004
# map: global _edata 11004
# map: global _end 11004
# map: global __global_pointer$ 11800
# map: row 1 2 2 10000 0 0
# map: row 1 2 3 10000 26 8
# map: row 1 3 4 1001a 4 2
# map: row 1 5 7 1001e 8 2
# map: row 1 7 9 10026 0 0
# map: row 1 7 10 10026 0 0
# map: row 1 7 11 10026 2 1
# map: row 1 8 13 11000 4 0
# map: row 1 9 15 10028 0 0
# map: row 1 9 16 10028 2 1
#--- a.s
.globl _start
f: li a0, 0x123456789abcdef0
sext.b a1, a1
.option push; .option norvc
sext.b a1, a1
.option pop
_start: .align 1; ret
.data; .half _start - f, a - _start
.section .text.b, "ax"; a: mv a0, a1
