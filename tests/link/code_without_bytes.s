# Code without bytes in the file. By hand: S + A of the psABI, and the layout of regions.
# text: 13000000 00000000 00000000 8280
# rodata:
# data:
# map: bss 11000 11000
#--- a.o object
section .text ax 4: 13000000
symbol _start global 1 0
#--- b.o object
section .text ax 8 size 4
#--- c.o object
section .text ax 2: 8280
