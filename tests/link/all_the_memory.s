# All the memory that a program may have, 256 MiB. By hand: S + A of the psABI, and the layout of regions.
# text: 13000000
# rodata:
# data:
# map: bss 11000 10010ffc
#--- a.o object
section .text ax 4: 13000000
symbol _start global 1 0
#--- b.o object
section .bss wa 1 size 0xffffffc
