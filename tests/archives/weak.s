# A weak reference takes nothing, and a weak definition is enough. Each exit is that of GNU ld 2.40
# and qemu-riscv64.
# rv: as -o weak.o weak.s
# rv: as -o f.o f.s
# rv: as -o weakdef.o weakdef.s
# rv: as -o need_k.o need_k.s
# archive: f.a f.o
# archive: weak.a weakdef.o
# rv: ld -o exe --map map weak.o --library f.a
# rv: run exe
# exit: 0
# rv: ld -o exe --map map need_k.o --library weak.a
# rv: run exe
# exit: 3
# rv: ld -o exe --map map need_k.o --library f.a --library weak.a
# rv: run exe
# exit: 7
#--- weak.s
.globl _start
.weak f
_start: la a0, f
snez a0, a0
li a7, 93
ecall
{{f.txt}}
#--- weakdef.s
.weak f
f: li a0, 3
ret
.globl k
k: nop
#--- need_k.s
.globl _start
_start: la t0, k
call f
li a7, 93
ecall
