# An object of one instruction. By hand: S + A of the psABI, and the layout of regions.
# text: 13000000
# rodata:
# data:
# map: bss 11000 11000
#--- a.o object
section .text ax 4: 13000000
symbol _start global 1 0
