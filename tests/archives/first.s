# The first member that defines a name is taken, and no second one. The entry may be a member's. Each
# exit is that of GNU ld 2.40 and qemu-riscv64.
# rv: as -o main.o main.s
# rv: as -o f.o f.s
# rv: as -o f2.o f2.s
# archive: two.a f2.o f.o
# archive: start.a main.o
# rv: ld -o exe --map map main.o --library two.a
# rv: run exe
# exit: 9
# rv: ld -o exe --map map f.o --library start.a
# rv: run exe
# exit: 7
{{main.txt}}
{{f.txt}}
#--- f2.s
.globl f
f: li a0, 9
ret
