# Eight zeros behind constants, variables and zeros, which the map has as the last file: loads past the end of the last
# object of each go on.
# rv: run a.s
# end: LoadOutside 11001
# rv: build --pad-ends -o exe --map map a.s
# rodata: 6100000000000000 00
# data: 02 0000000000000000
# map: rodata 11000 11009
# map: data 12000 12009
# map: bss 12009 12019
# map: row 2 2 2 11001 8 0
# map: row 2 4 4 12001 8 0
# map: row 2 6 6 12011 8 0
# rv: run exe
# status: 99
# rv: as -o a.o a.s
# rv: ld --pad-ends -o linked --map linked.map a.o
# same: exe linked
# same: map linked.map
# rv: build --pad-ends --gc-sections -o exe a.s
# status: 2
# errors has: error: --gc-sections leaves out what --pad-ends adds
#--- a.s
.globl _start
_start: la s0, constant
  la s1, variable
  la s2, zeros
  lwu a0, 1(s0)
  lwu a1, 1(s1)
  lwu a2, 8(s2)
  lbu a0, (s0)
  lbu a1, (s1)
  add a0, a0, a1
  add a0, a0, a2
  li a7, 93
  ecall
.section .rodata
constant: .byte 97
.data
variable: .byte 2
.bss
zeros: .space 8
