# A name of over 15 bytes stands in a table of its own. One that begins as a name of BSD's is a name all the same.
# rv: as -o main.o main.s
# rv: as -o f.o f.s
# archive: lib.a f.o
# rv: as -o a_name_of_over_15_bytes.o f.s
# archive: lib.a a_name_of_over_15_bytes.o
# rv: ld -o exe --map map main.o --library lib.a
# rv: run exe
# exit: 7
# rv: as -o #1 f.s
# archive: lib.a #1
# rv: ld -o exe main.o --library lib.a
# rv: run exe
# exit: 7
# rv: as -o __.SYMDEFx.o f.s
# archive: lib.a __.SYMDEFx.o
# rv: ld -o exe main.o --library lib.a
# rv: run exe
# exit: 7
# rv: as -o __.SYMDEF f.s
# archive: lib.a __.SYMDEF
# rv: ld -o exe main.o --library lib.a
# rv: run exe
# exit: 7
{{main.txt}}
{{f.txt}}
