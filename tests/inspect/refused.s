# What the words for reading files refuse: as every word that takes files.
# rv: size nothere
# fault: nothere: cannot read
# rv: nm nothere
# fault: nothere: cannot read
# rv: elf nothere
# fault: nothere: cannot read
# rv: nm --map nothere a.s
# fault: nothere: cannot read
# rv: as -o a.o a.s
# rv: size a.o a.s
# fault: a.s: F2 BadMagic
# rv: elf a.s
# fault: a.s: F2 BadMagic
# rv: nm a.s
# fault: a.s: F2 BadMagic
# rv: build -o exe --map map a.s
# rv: nm --map a.s exe
# fault: a.s: not a map
# rv: nm --map map a.o
# fault: a.o: F11 NotExecutable
# rv: size exe
# cut: exe 63
# rv: size exe
# fault: exe: F1 Truncated
# rv: elf exe
# fault: exe: F1 Truncated
#--- a.s
# A comment, so that the source is as long as the header of a file: 64 bytes.
.globl _start
_start: ret
