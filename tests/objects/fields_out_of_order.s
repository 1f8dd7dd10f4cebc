# Fields whose records stand in another order than their places, and a padding that begins before all of them: the psABI
# asks for no order. The padding keeps its two bytes, so that the jump is at a multiple of 4; the values are by hand.
# rv: ld -o exe a.o
# text: 0100 0100 6f008000 0c000000 8280
# rv: ld --no-relax -o exe a.o
# text: 0100 0100 6f008000 0c000000 8280
# rv: ld -o exe b.o
# fault: b.o: F5 BadTable
#--- a.o object
rvc
section .text ax 4: 0100 0100 6f000000 00000000 8280
reloc 8 ADD32 f
reloc 8 SUB32 _start
reloc 4 JAL f
reloc 2 ALIGN +2
symbol _start global 1 0
symbol f global 1 12
#--- b.o object
rvc
section .text ax 4: 0100 01000100 6f000000 8280
reloc 4 JAL f
reloc 2 ALIGN +4
symbol _start global 1 0
symbol f global 1 8
