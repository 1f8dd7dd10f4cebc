# `h` is weak in a.s and in c.s, and global in b.s: the global one is meant wherever it stands, else the first weak one,
# also by the file that has one of its own. GNU ld 2.40 chooses the same. The objects of the sources link to the same.
# rv: build -o exe --map map a.s
# map: global h 1000c
# map: row 1 3 4 10000 4 1
# rv: run exe
# exit: 1
# rv: build -o exe --map map a.s b.s
# map: global h 10010
# no map: global h 1000c
# rv: run exe
# exit: 2
# rv: build -o built --map built.map a.s c.s
# same: built.map wanted.map
# rv: run built
# exit: 1
# rv: build -o exe --map map c.s a.s
# map: global h 10000
# map: global _start 10004
# rv: run exe
# exit: 3
# rv: build -o exe --map map a.s b.s c.s
# map: global h 10010
# rv: run exe
# exit: 2
# rv: build -o exe a.s c.s b.s
# rv: run exe
# exit: 2
# rv: build -o exe a.s b.s b.s
# fault: L6 Duplicate h
# rv: as -o a.o a.s
# rv: as -o b.o b.s
# rv: as -o c.o c.s
# rv: ld -o exe a.o
# rv: run exe
# exit: 1
# rv: ld -o exe a.o b.o
# rv: run exe
# exit: 2
# rv: ld -o exe --map map a.o c.o
# same: exe built
# same: map wanted.map
# rv: ld -o exe c.o a.o
# rv: run exe
# exit: 3
# rv: ld -o exe a.o b.o c.o
# rv: run exe
# exit: 2
# rv: ld -o exe a.o c.o b.o
# rv: run exe
# exit: 2
# rv: ld -o exe a.o b.o b.o
# fault: L6 Duplicate h
#--- a.s
.globl _start
.weak h
_start: call h
li a7, 93
ecall
h: li a0, 1
ret
#--- b.s
.globl h
h: li a0, 2
ret
#--- c.s
.weak h
h: li a0, 3
ret
#--- wanted.map
rvmap 1
text 10000 10014
rodata 11000 11000
data 11000 11000
bss 11000 11000
entry 10000
global _start 10000
global h 1000c
global _etext 10014
global __bss_start 11000
global _edata 11000
global _end 11000
global __global_pointer$ 11800
row 1 3 3 10000 0 0
row 1 3 4 10000 4 1
row 1 4 5 10004 4 1
row 1 5 6 10008 4 1
row 1 6 7 1000c 0 0
row 1 6 8 1000c 2 1
row 1 7 9 1000e 2 1
row 2 2 2 10010 0 0
row 2 2 3 10010 2 1
row 2 3 4 10012 2 1
