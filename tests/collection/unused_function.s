# A section to which nothing leads is dropped, and what it alone refers to with it: `g` and `d`. The objects of the source
# link to the same. GNU ld 2.40 drops the same two with `--gc-sections -e _start`.
# rv: build --gc-sections -o exe --map map a.s
# map: text 10000 10010
# map: data 11000 11000
# map: drop 1 3
# map: drop 1 4
# no map: drop 1 1
# no map: drop 1 2
# no map: global d
# no map: row 1 10
# no map: row 1 11
# rv: run exe
# exit: 4
# rv: as -o a.o a.s
# rv: ld --gc-sections -o linked --map linked.map a.o
# same: linked exe
# same: linked.map map
# rv: map --gc-sections a.s
# out has: drop 1 3
# out has: drop 1 4
# rv: build -o exe --map map a.s
# map: text 10000 1001a
# map: data 11000 11008
# map: global d 11000
# no map: drop
# rv: run exe
# exit: 4
#--- a.s
.globl _start, d
_start: call f
li a7, 93
ecall
.section .text.f, "ax"
f: li a0, 4
ret
.section .text.g, "ax"
g: la a0, d
ret
.data
d: .dword 9
