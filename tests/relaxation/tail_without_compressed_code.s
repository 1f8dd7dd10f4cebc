# `_start: tail f`, `f: ret`, in an object that says nothing of compressed code: jal zero has four bytes. By hand.
# rv: ld -o exe --map map a.o
# text: 6f004000 8280
#--- a.o object
section .text ax 2: 17030000 67000300 8280
reloc 0 CALL_PLT f
reloc 0 RELAX
symbol _start global 1 0
symbol f global 1 8
