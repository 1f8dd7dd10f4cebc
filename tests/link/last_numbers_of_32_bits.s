# The last number of 32 bits, with and without a sign; an alignment in data takes nothing out. By hand: S + A of the
# psABI, and the layout of regions.
# text: 13000000
# rodata:
# data: ffffffff 05060708 00000080
# map: bss 1100c 1100c
#--- a.o object
section .text ax 4: 13000000
symbol _start global 1 0
#--- b.o object
section .data wa 1: 01000200 05060708 00000000
reloc 0 32 +0xffffffff
reloc 8 32 -0x80000000
reloc 5 ALIGN +6
reloc 5 NONE +1
