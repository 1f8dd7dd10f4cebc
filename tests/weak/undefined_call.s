# `f` is weak and no file defines it: it is 0, so the first program passes its call by, and the second goes to 0, where
# nothing may be executed. Both calls keep their eight bytes. Where `f` is not weak it has no meaning.
# rv: build -o exe --map map passes.s
# map: row 1 2 6 1000a 8 2
# rv: run exe
# exit: 0
# rv: as -o passes.o passes.s
# rv: ld -o linked --map linked.map passes.o
# same: linked exe
# same: linked.map map
# rv: build -o exe --map map calls.s
# map: row 1 2 4 10000 8 2
# rv: run exe
# end: FetchOutside 0
# rv: as -o calls.o calls.s
# rv: ld -o linked --map linked.map calls.o
# same: linked exe
# same: linked.map map
# rv: build -o refused plain.s
# fault: L5 Undefined f
# rv: as -o plain.o plain.s
# rv: ld -o refused plain.o
# fault: L5 Undefined f
#--- passes.s
.globl _start; .weak f
_start: la a0, f; beqz a0, z; call f
z: li a7, 93; ecall
#--- calls.s
.globl _start; .weak f
_start: call f
#--- plain.s
.globl _start
_start: call f
