# Members are taken for names that are undefined, and others are not looked at, here bad.o, which
# calls what nobody defines. Each exit is that of GNU ld 2.40 and qemu-riscv64.
# rv: as -o main.o main.s
# rv: as -o f.o f.s
# rv: as -o bad.o bad.s
# rv: as -o f_g.o f_g.s
# rv: as -o g.o g.s
# archive: one.a bad.o f.o
# archive: reversed.a g.o f_g.o
# archive: empty.a
# wide: wide.a bad.o f.o
# archive: blank.a f.o
# patch: blank.a 51 20
# rv: ld -o exe --map map main.o --library one.a
# rv: run exe
# exit: 7
# rv: ld -o exe --map map main.o --library reversed.a
# rv: run exe
# exit: 21
# rv: ld -o exe --map map main.o f.o --library one.a
# rv: run exe
# exit: 7
# rv: ld -o exe --map map main.o --library empty.a f.o
# rv: run exe
# exit: 7
# rv: ld -o exe --map map main.o --library wide.a
# rv: run exe
# exit: 7
# (a name that ends at a blank)
# rv: ld -o exe --map map main.o --library blank.a
# rv: run exe
# exit: 7
# rv: ld -o exe --library one.a main.o
# fault: L5 Undefined f
{{main.txt}}
{{f.txt}}
#--- bad.s
.globl unused
unused: tail nowhere
{{f_g.txt}}
#--- g.s
.globl g
g: li a0, 20
ret
