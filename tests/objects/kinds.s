# The objects of these sources link to the executable and the map that the sources build, with short calls
# and without: sections of every kind, a padding in code, constants that others may name, and a difference.
# rv: as -o kinds.o kinds.s
# rv: build -o built --map built.map kinds.s
# status: 0
# rv: ld -o exe --map map kinds.o
# same: exe built
# same: map built.map
# rv: build --no-relax -o built --map built.map kinds.s
# status: 0
# rv: ld --no-relax -o exe --map map kinds.o
# same: exe built
# same: map built.map
#--- kinds.s
.globl _start, size, place
.set size, 0x123456789
_start: li a7, 93
.balign 8
here: ecall
.data
place: .dword here, size, there - place
.balign 16
there: .byte 1
.bss
.zero 5
.section .note.x, "a", @note
.word 1
.section notes
.word 2
