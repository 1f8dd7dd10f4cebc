# The objects of these sources link to the executable and the map that the sources build, with short calls
# and without: calls that are shortened and calls that may not be, and a difference over each kind. The program exits with
# the bytes of its first call, which may be shortened, and 16 times those of its second: 4 + 16 * 8, or 8 + 16 * 8.
# rv: as -o calls.o calls.s
# rv: build -o built --map built.map calls.s
# status: 0
# rv: ld -o exe --map map calls.o
# same: exe built
# same: map built.map
# rv: build --no-relax -o built --map built.map calls.s
# status: 0
# rv: ld --no-relax -o exe --map map calls.o
# same: exe built
# same: map built.map
# rv: as -o jumps.o jumps.s
# rv: build -o built --map built.map jumps.s calls.s
# status: 0
# rv: ld -o exe --map map jumps.o calls.o
# same: exe built
# same: map built.map
# rv: build --no-relax -o built --map built.map jumps.s calls.s
# status: 0
# rv: ld --no-relax -o exe --map map jumps.o calls.o
# same: exe built
# same: map built.map
# rv: ld -o exe calls.o
# rv: run --limit 100 exe
# exit: 132
# rv: ld --no-relax -o exe calls.o
# rv: run --limit 100 exe
# exit: 136
#--- calls.s
.globl _start, f
_start: call f
first: .option push
.option norelax
call f
.option pop
second: tail end
.balign 16
f: ret
end: lw a0, lengths
lw a1, lengths + 4
slli a1, a1, 4
or a0, a0, a1
li a7, 93
ecall
.data
lengths: .word first - _start, second - first
#--- jumps.s
.option norvc
tail f
.balign 4
jump f, t0
