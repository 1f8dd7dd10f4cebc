# A symbol past the end of its section, and one that goes round at 2^64. By hand: S + A of the psABI, and the layout
# of regions.
# text: 13000000
# rodata:
# data: 01110100 ff0f0100 00000000
# map: bss 1100c 1100c
#--- a.o object
section .text ax 4: 13000000
symbol _start global 1 0
#--- b.o object
section .data wa 4: 00000000 00000000 00000000
reloc 0 32 past+1
reloc 4 64 round
symbol past local 1 0x100
symbol round local 1 0xffffffffffffffff
