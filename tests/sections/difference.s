# Operators as GNU as binds them, the distance of two places, and zeros up to an alignment. Bytes are the encodings of
# the ISA manual, the map is by docs/manual/files.md.
# rv: build -o exe --map map difference.s
# data: 090000000400000008000000
# size: 8204
# same: map wanted.map
# rv: run exe
# console:
# exit: 0
#--- difference.s
.option norvc
.globl _start
_start: li a7, 93
ecall
.data
a: .byte 2 + 3 | 4
.align 2
b: .word b - a, 5 % 3 << 2
#--- wanted.map
rvmap 1
text 10000 10008
rodata 11000 11000
data 11000 1100c
bss 1100c 1100c
entry 10000
global _start 10000
global _etext 10008
global __bss_start 1100c
global _edata 1100c
global _end 1100c
global __global_pointer$ 11800
row 1 3 3 10000 0 0
row 1 3 4 10000 4 1
row 1 4 5 10004 4 1
row 1 6 7 11000 0 0
row 1 6 8 11000 1 0
row 1 7 9 11001 3 0
row 1 8 10 11004 0 0
row 1 8 11 11004 8 0
