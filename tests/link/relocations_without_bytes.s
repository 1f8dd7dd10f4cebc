# What has no bytes meets no padding and no field: a relocation without a field, and paddings without bytes. By hand:
# S + A of the psABI, and the layout of regions.
# text: 01000100 13000000 6ff09fff
# rodata:
# data:
# map: bss 11000 11000
#--- a.o object
section .text ax 8: 01000100 01001300 00006f00 0000
reloc 4 ALIGN +6
reloc 6 NONE
reloc 8 ALIGN
reloc 10 JAL _start
reloc 12 ALIGN
symbol _start global 1 0
