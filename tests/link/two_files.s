# Names across two files, a local name that both have, and the places of their sections: the data are `p`, `v`, a gap,
# `v`, a padding, `f` and `g`. Bytes are the encodings of the ISA manual, the map is by docs/manual/files.md.
# rv: build -o exe --map map reads.s seven.s
# data: 0c10010001000000030000000700000008100100
# same: map wanted.map
# rv: run exe
# console:
# exit: 7
#--- reads.s
.option norvc
.globl _start
_start: lui a1, 17
lw a1, 0(a1)
lw a0, 0(a1)
li a7, 93
ecall
.data
p: .word f
v: .byte 1
#--- seven.s
.option norvc
.globl f, g
.data
v: .byte 3
.balign 4
f: .word 7
g: .word v
#--- wanted.map
rvmap 1
text 10000 10014
rodata 11000 11000
data 11000 11014
bss 11014 11014
entry 10000
global _start 10000
global f 1100c
global g 11010
global _etext 10014
global __bss_start 11014
global _edata 11014
global _end 11014
global __global_pointer$ 11800
row 1 3 3 10000 0 0
row 1 3 4 10000 4 1
row 1 4 5 10004 4 1
row 1 5 6 10008 4 1
row 1 6 7 1000c 4 1
row 1 7 8 10010 4 1
row 1 9 10 11000 0 0
row 1 9 11 11000 4 0
row 1 10 12 11004 0 0
row 1 10 13 11004 1 0
row 2 4 4 11008 0 0
row 2 4 5 11008 1 0
row 2 5 6 11009 3 0
row 2 6 7 1100c 0 0
row 2 6 8 1100c 4 0
row 2 7 9 11010 0 0
row 2 7 10 11010 4 0
