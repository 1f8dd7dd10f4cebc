# A blank and the end of a line in a symbol's name stand in a message as their numbers.
# rv: ld -o exe a.o
# fault: L5 Undefined a_b_
# patch: a.o bb 20620a
# rv: ld -o exe a.o
# fault: L5 Undefined a\x20b\x0a
#--- a.o object
rvc
section .text ax 2: 0100 6f000000
reloc 2 JAL a_b_
symbol _start global 1 0
symbol a_b_ local undefined 0
