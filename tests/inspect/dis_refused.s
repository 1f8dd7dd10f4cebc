# What `dis` refuses: as every word that takes files.
# rv: dis nothere
# fault: nothere: cannot read
# rv: as -o a.o a.s
# rv: dis a.s
# fault: a.s: F2 BadMagic
# rv: build -o exe --map map a.s
# rv: dis --map a.s exe
# fault: a.s: not a map
# rv: dis --map nothere exe
# fault: nothere: cannot read
# cut: exe 63
# rv: dis exe
# fault: exe: F1 Truncated
#--- a.s
# A comment, so that the source is as long as the header of a file: 64 bytes.
.globl _start
_start: ret
