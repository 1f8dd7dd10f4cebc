# A file of another kind in the place of a source is one fault, with the word that takes it (gABI, "ELF Header"; ar(5)).
# rv: as -o a.o a.s
# rv: check a.o
# status: 1
# out has: a.o:1: E1 BadByte
# out has:   this is an object and no source: rv ld links it
# out has: 1 fault
# rv: build --explain -o exe a.o
# status: 1
# errors has: rv: a.o:1: E1 BadByte
# errors has:   this is an object and no source: rv ld links it
# rv: ld -o exe a.o
# rv: check exe
# status: 1
# out has:   this is an executable and no source: rv run runs it, and rv dis lists it
# out has: 1 fault
# patch: exe 10 03
# rv: check exe
# status: 1
# out has:   this is a file of ELF and no source
# rv: check lib.a
# status: 1
# out has:   this is an archive and no source: rv ld links the objects that ar x takes out
# out has: 1 fault
#--- a.s
.globl _start
_start: ret
#--- lib.a hex
213c617263683e0a 2f 7f 0a
