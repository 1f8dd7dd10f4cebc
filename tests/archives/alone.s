# An archive alone may have the entry; without an option an archive is no object. Each exit is that of GNU ld 2.40 and
# qemu-riscv64.
# rv: as -o main.o main.s
# rv: as -o f_g.o f_g.s
# rv: as -o g_h.o g_h.s
# rv: as -o h.o h.s
# archive: a.a h.o f_g.o
# archive: all.a main.o f_g.o g_h.o h.o
# archive: short.a main.o
# cut: short.a 8
# archive: shorter.a main.o
# cut: shorter.a 7
# rv: ld -o exe --map map --library all.a
# rv: run exe
# exit: 33
# rv: ld -o exe --map map -L . -l :
# fault: cannot find -l:
# rv: ld -o exe --library a.a
# fault: L7 EntryMissing
# rv: ld -o exe main.o --library short.a
# fault: L5 Undefined f
# rv: ld -o exe main.o --library shorter.a
# fault: shorter.a: A2 NotArchive
# rv: ld -o exe main.o a.a
# fault: a.a: F2 BadMagic
{{chain.txt}}
