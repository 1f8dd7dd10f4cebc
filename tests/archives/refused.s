# What is no archive, one without an index, and one that ends in a member or in a head. One that is taken out of another
# is no object; one that is not taken is not looked at.
# rv: as -o main.o main.s
# rv: ld -o exe --library main.o
# fault: main.o: A2 NotArchive
# rv: as -o f.o f.s
# unindexed: x.a f.o
# rv: ld -o exe main.o --library x.a
# fault: x.a: A7 NoIndex
# rv: ld -o exe main.o --library x.a --explain
# status: 1
# errors has: rv: x.a: A7 NoIndex
# error:   it has members and no index
# rv: as -o f.o f.s
# archive: x.a f.o
# cut: x.a 100
# rv: ld -o exe main.o --library x.a
# fault: x.a: A1 TruncatedArchive
# rv: as -o f.o f.s
# archive: x.a f.o
# cut: x.a 80
# rv: ld -o exe main.o --library x.a
# fault: x.a: A1 TruncatedArchive
# rv: as -o f.o f.s
# archive: x.a f.o
# patch: x.a 8a 213c617263683e0a
# rv: ld -o exe main.o --library x.a --explain
# status: 1
# errors: rv: x.a(f.o): F2 BadMagic\n  it is an archive: rv ld takes it by --library\n
# rv: ld -o exe main.o f.o --library x.a
# rv: run exe
# exit: 7
{{main.txt}}
{{f.txt}}
