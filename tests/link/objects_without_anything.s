# Objects and sections without anything, and sections that are no part of memory. By hand: S + A of the psABI, and the
# layout of regions.
# text: 13000000
# rodata:
# data:
# map: bss 11000 11000
#--- a.o object
#--- b.o object
section .text ax 4: 13000000
symbol _start global 1 0
#--- c.o object
section .text ax 1:
section .data wa 8:
section .comment - 1: 474e55
section .zeros w 4096 size 9
symbol end local 3 3
