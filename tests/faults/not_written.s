# Files in a folder that is not there; an executable is written before its map.
# rv: build --map a.map -o none/a a.s
# fault: none/a: cannot write
# out:
# rv: dump a.map
# fault: a.map: cannot read
# rv: build --map none/a.map -o a a.s
# fault: none/a.map: cannot write
# out:
# rv: run a
# exit: 7
# rv: as -o none/a.o a.s
# fault: none/a.o: cannot write
# out:
# rv: as -o a.o a.s
# rv: ld --map l.map -o none/l a.o
# fault: none/l: cannot write
# out:
# rv: dump l.map
# fault: l.map: cannot read
# rv: ld --map none/l.map -o l a.o
# fault: none/l.map: cannot write
# out:
# rv: run l
# exit: 7
#--- a.s
.option norvc
.globl _start
_start: li a0, 7
li a7, 93
ecall
