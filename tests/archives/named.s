# -l NAME is libNAME.a of the first folder that has one; without any nothing behind it is read.
# rv: as -o main.o main.s
# rv: as -o f.o f.s
# archive: libx.a f.o
# rv: ld -o exe --map map main.o -L nowhere -L . -l x
# rv: run exe
# exit: 7
# rv: ld -o exe --map map main.o -lx -L.
# rv: run exe
# exit: 7
# rv: ld -o exe main.o -lx
# fault: cannot find -lx
# rv: ld -o exe main.o -L . -l y missing.o
# fault: cannot find -ly
# rv: ld -o exe main.o --library missing.a
# fault: missing.a: cannot read
# rv: build -o exe --map map main.s -L . -l x
# rv: run exe
# exit: 7
# rv: build -o exe main.s --library libx.a --gc-sections
# rv: run exe
# exit: 7
{{main.txt}}
{{f.txt}}
