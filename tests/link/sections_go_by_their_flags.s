# A section goes by its flags, whatever its name. By hand: S + A of the psABI, and the layout of regions.
# text: 13000000 0304
# rodata: 01
# data: 02
# map: bss 12001 12001
#--- a.o object
section .text ax 4: 13000000
symbol _start global 1 0
#--- b.o object
section .data a 1: 01
section .rodata wa 1: 02
section  wax 1: 0304
