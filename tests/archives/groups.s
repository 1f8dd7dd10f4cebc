# Archives that need one another: each is gone round by itself, and those of a group together.
# Each exit is that of GNU ld 2.40 and qemu-riscv64.
# rv: as -o main.o main.s
# rv: as -o f_g.o f_g.s
# rv: as -o g_h.o g_h.s
# rv: as -o h.o h.s
# archive: a.a h.o f_g.o
# archive: b.a g_h.o
# rv: ld -o exe main.o --library a.a --library b.a
# fault: L5 Undefined h
# rv: ld -o exe --map map main.o --start-group --library a.a --library b.a --end-group
# rv: run exe
# exit: 33
# rv: ld -o exe --map map --start-group --library b.a main.o --library a.a --end-group
# rv: run exe
# exit: 33
# rv: ld -o exe --map map main.o --library a.a --library b.a --library a.a
# rv: run exe
# exit: 33
# rv: ld -o exe main.o --start-group --library a.a
# status: 2
# errors has: error: --start-group has no --end-group behind it
# rv: ld -o exe main.o --library a.a --end-group
# status: 2
# errors has: error: --end-group has no --start-group before it
# rv: ld -o exe main.o --start-group --start-group --end-group
# status: 2
# errors has: error: --start-group stands in another group
{{chain.txt}}
