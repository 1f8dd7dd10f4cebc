# Four hundred calls of an object's file, each with four bytes: so f is at 10000h + 4 * 400 + 8.
# rv: as -o a.o many_calls_of_an_object.s
# status: 0
# rv: ld -o exe --map map a.o
# map: global f 10648
.globl _start, f
_start:
{{400 * call f\n}}li a7, 93
ecall
f: ret
