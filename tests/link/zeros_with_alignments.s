# Zeros with alignments, of which the greatest is that of all of them; a section without bytes is none of rows,
# whatever its name. By hand: S + A of the psABI, and the layout of regions.
# text: 13000000
# rodata:
# data: 07
# map: bss 11010 11023
#--- a.o object
section .text ax 4: 13000000
symbol _start global 1 0
#--- b.o object
section .data wa 1: 07
section .bss wa 1 size 3
section .bss.b wa 16 size 1
section .rv.rows a 1 size 2
