# The object of a source is linked to what the source builds.
# rv: as -o a.o a.s
# out:
# errors:
# rv: ld --map l.map -ol --no-relax a.o
# out:
# errors:
# rv: build -o b --map b.map a.s --no-relax
# out:
# errors:
# same: l b
# same: l.map b.map
#--- a.s
.option norvc
.globl _start
_start: li a0, 7
li a7, 93
ecall
