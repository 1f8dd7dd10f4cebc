# What a file is that is refused, where --explain asks for it (gABI, "ELF Header", "Sections", "Symbol Table"; psABI, "File Header";
# ar(5)). The object of rv has its section headers from 170h on, its relocations at 50h
# and its symbols at e0h.
# rv: ld --explain -o exe a.s
# status: 1
# errors: rv: a.s: F1 Truncated\n  it is a text: rv as makes an object of a source, and rv build builds sources\n
# rv: ld --explain -o exe long.s
# status: 1
# errors: rv: long.s: F2 BadMagic\n  it is a text: rv as makes an object of a source, and rv build builds sources\n
# rv: ld --explain -o exe empty
# status: 1
# errors: rv: empty: F1 Truncated\n  it is empty\n
# rv: ld --explain -o exe lib.a
# status: 1
# errors: rv: lib.a: F2 BadMagic\n  it is an archive: rv ld takes it by --library\n
# rv: ld --explain -o exe bytes
# status: 1
# errors: rv: bytes: F2 BadMagic\n  its first bytes are not 7Fh ELF\n
# rv: build -o exe a.s
# rv: ld --explain -o exe2 exe
# status: 1
# errors: rv: exe: F14 NotObject\n  it is an executable, which is linked: rv run runs it\n
# patch: exe 10 03
# rv: run --explain exe
# status: 1
# errors: rv: exe: F11 NotExecutable\n  it is a shared object or position-independent: link it with -static -no-pie\n
# rv: ld --explain -o exe2 exe
# status: 1
# errors: rv: exe: F14 NotObject\n  it is a shared object or position-independent: link it with -static -no-pie\n
# patch: exe 10 04
# rv: run --report --explain exe
# status: 1
# errors: rv: exe: F11 NotExecutable\n  its type is 4, and not 1, of objects, or 2, of executables\n
# rv: as -o a.o a.s
# rv: run --explain a.o
# status: 1
# errors: rv: a.o: F11 NotExecutable\n  it is an object: rv ld links objects to an executable\n
# rv: run a.o
# status: 1
# errors: rv: a.o: F11 NotExecutable\n
# patch: a.o 4 01
# rv: ld --explain -o exe a.o
# status: 1
# errors: rv: a.o: F3 WrongClass\n  its class is 1, of 32 bits, and not 2, of 64\n
# rv: as -o a.o a.s
# patch: a.o 4 00
# rv: ld --explain -o exe a.o
# status: 1
# errors: rv: a.o: F3 WrongClass\n  its class is 0, and not 2, of 64 bits\n
# rv: as -o a.o a.s
# patch: a.o 5 02
# rv: ld --explain -o exe a.o
# status: 1
# errors: rv: a.o: F3 WrongClass\n  its data is 2, big-endian, and not 1, little-endian\n
# rv: as -o a.o a.s
# patch: a.o 5 03
# rv: ld --explain -o exe a.o
# status: 1
# errors: rv: a.o: F3 WrongClass\n  its data is 3, and not 1, little-endian\n
# rv: as -o a.o a.s
# patch: a.o 6 02
# rv: ld --explain -o exe a.o
# status: 1
# errors: rv: a.o: F3 WrongClass\n  its version is 2, and not 1\n
# rv: as -o a.o a.s
# patch: a.o 12 3e00
# rv: ld --explain -o exe a.o
# status: 1
# errors: rv: a.o: F4 WrongMachine\n  its machine is 62, x86-64, and not 243, RISC-V\n
# rv: as -o a.o a.s
# patch: a.o 12 0100
# rv: ld --explain -o exe a.o
# status: 1
# errors: rv: a.o: F4 WrongMachine\n  its machine is 1, and not 243, RISC-V\n
# rv: as -o a.o a.s
# patch: a.o 30 05
# rv: ld --explain -o exe a.o
# status: 1
# errors: rv: a.o: F4 WrongMachine\n  its flags are 0x5: it passes floats by registers, lp64d; build it with -march=rv64imac -mabi=lp64\n
# rv: as -o a.o a.s
# patch: a.o 30 03
# rv: ld --explain -o exe a.o
# status: 1
# errors: rv: a.o: F4 WrongMachine\n  its flags are 0x3: it passes floats by registers, lp64f; build it with -march=rv64imac -mabi=lp64\n
# rv: as -o a.o a.s
# patch: a.o 30 07
# rv: ld --explain -o exe a.o
# status: 1
# errors: rv: a.o: F4 WrongMachine\n  its flags are 0x7: it passes floats by registers, lp64q; build it with -march=rv64imac -mabi=lp64\n
# rv: as -o a.o a.s
# patch: a.o 30 09
# rv: ld --explain -o exe a.o
# status: 1
# errors: rv: a.o: F4 WrongMachine\n  its flags are 0x9: it has 16 registers alone, of RV64E; build it with -march=rv64imac -mabi=lp64\n
# rv: as -o a.o a.s
# cut: a.o 32
# rv: ld --explain -o exe a.o
# status: 1
# errors: rv: a.o: F1 Truncated\n  it ends inside its header, which has 64 bytes\n
# rv: as -o a.o a.s
# cut: a.o 100
# rv: ld --explain -o exe a.o
# status: 1
# errors: rv: a.o: F1 Truncated\n  its tables of headers pass its end\n
# rv: as -o a.o a.s
# patch: a.o 3a 3f
# rv: ld --explain -o exe a.o
# status: 1
# errors: rv: a.o: F5 BadTable\n  the sizes or counts of its tables of headers are none that ELF has\n
# rv: as -o a.o call.s
# patch: a.o 1c8 00001000
# rv: ld --explain -o exe a.o
# status: 1
# errors: rv: a.o: F1 Truncated\n  section 1 .text has bytes behind the end of the file\n
# rv: as -o a.o call.s
# patch: a.o 5c 09
# rv: ld --explain -o exe a.o
# status: 1
# errors: rv: a.o: F7 BadIndex\n  record 0 of section 2 .rela.text names a symbol that there is not\n
# rv: as -o a.o call.s
# patch: a.o 21c 09
# rv: ld --explain -o exe a.o
# status: 1
# errors: rv: a.o: F7 BadIndex\n  section 2 .rela.text is of a section that there is not\n
# rv: as -o a.o call.s
# patch: a.o 218 09
# rv: ld --explain -o exe a.o
# status: 1
# errors: rv: a.o: F7 BadIndex\n  section 2 .rela.text names a section for its symbols that there is not\n
# rv: as -o a.o call.s
# patch: a.o 218 05
# rv: ld --explain -o exe a.o
# status: 1
# errors: rv: a.o: F7 BadIndex\n  section 2 .rela.text names a section for its symbols that is no table of symbols\n
# rv: as -o a.o call.s
# patch: a.o 298 09
# rv: ld --explain -o exe a.o
# status: 1
# errors: rv: a.o: F7 BadIndex\n  section 4 .symtab names a section for its strings that there is not\n
# rv: as -o a.o call.s
# patch: a.o fc 30
# rv: ld --explain -o exe a.o
# status: 1
# errors: rv: a.o: F7 BadIndex\n  record 1 of section 4 .symtab is neither local, global nor weak\n
# rv: as -o a.o call.s
# patch: a.o fe f2ff
# rv: ld --explain -o exe a.o
# status: 1
# errors: rv: a.o: F7 BadIndex\n  record 1 of section 4 .symtab is common: compile with -fno-common, and write no .comm\n
# rv: as -o a.o call.s
# patch: a.o fe 0900
# rv: ld --explain -o exe a.o
# status: 1
# errors: rv: a.o: F7 BadIndex\n  record 1 of section 4 .symtab is in a section that there is not\n
# rv: as -o a.o call.s
# patch: a.o f8 00
# rv: ld --explain -o exe a.o
# status: 1
# errors: rv: a.o: F6 BadString\n  record 1 of section 4 .symtab has a name without an end, or one that a map cannot show\n
# rv: as -o a.o call.s
# patch: a.o 12a 20
# rv: ld --explain -o exe a.o
# status: 1
# errors: rv: a.o: F6 BadString\n  record 1 of section 4 .symtab has a name without an end, or one that a map cannot show\n
# rv: as -o a.o call.s
# patch: a.o 1b0 ff
# rv: ld --explain -o exe a.o
# status: 1
# errors: rv: a.o: F6 BadString\n  section 1 has a name without an end\n
#--- a.s
.globl _start
_start: ret
#--- call.s
.globl _start
nop
_start: call f
#--- long.s
.globl _start
_start: li a0, 7
li a7, 93
ecall
{{20 * nop\n}}
#--- empty hex
#--- lib.a hex
213c617263683e0a
20202020202020202020202020202020
20202020202020202020202020202020
20202020202020202020202020202020
20202020202020202020202020202020
#--- bytes hex
00
41414141414141414141414141414141
41414141414141414141414141414141
41414141414141414141414141414141
41414141414141414141414141414141
41414141414141414141414141414141
