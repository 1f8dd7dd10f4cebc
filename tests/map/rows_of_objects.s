# What a map shows of a link: an empty object; one with two instructions of 2 bytes, a padding of 6 that keeps 4, one
# of 2 bytes, and a padding of 2 that keeps none, whose statements are told in no order; and code at a multiple of 64.
# By hand.
# text: 01000100 13000000 82808280 {{52 * 00}} 13000000
# map: rvmap 1
# map: text 10000 10044
# map: rodata 11000 11000
# map: data 11000 11000
# map: bss 11000 11000
# map: entry 10000
# map: gap 1000c 10040
# map: global _start 10000
# map: global behind 10008
# map: global end 1000c
# map: global _etext 10044
# map: global __bss_start 11000
# map: global _edata 11000
# map: global _end 11000
# map: global __global_pointer$ 11800
# map: row 2 7 1 10000 4 2
# map: row 2 8 2 10004 4 1
# map: row 2 9 3 10008 2 1
# map: row 2 10 4 1000a 2 1
# map: row 2 11 5 1000c 0 0
#--- a.o object
#--- b.o object
section .text ax 8: 01000100 01001300 00008280 82800100
reloc 14 ALIGN +2
reloc 4 ALIGN +6
section .rv.rows - 8: 0a000000 04000000 01000000 01000000 0c000000 00000000 02000000 00000000 07000000 01000000 01000000 02000000 00000000 00000000 04000000 00000000 09000000 03000000 01000000 01000000 0a000000 00000000 02000000 00000000 08000000 02000000 01000000 02000000 04000000 00000000 06000000 00000000 0b000000 05000000 01000000 01000000 0e000000 00000000 02000000 00000000
symbol _start global 1 0
symbol behind global 1 10
symbol end global 1 16
#--- c.o object
section .text ax 64: 13000000
