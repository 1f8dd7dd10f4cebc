# Objects that name their sources are linked for debuggers to what the sources build, and else as if they named none.
# rv: as -g -o a.o a.s
# out:
# errors:
# rv: as --gdwarf-5 --traditional-format -o b.o b.s
# out:
# errors:
# rv: ld -g -o linked --map linked.map a.o b.o
# out:
# errors:
# rv: build -g -o built --map built.map a.s b.s
# same: linked built
# same: linked.map built.map
# rv: ld -o plain a.o b.o
# rv: as -o a.o a.s
# rv: as -o b.o b.s
# rv: ld -o wanted a.o b.o
# same: plain wanted
# rv: as -g -o a.o a.s
# rv: as -g -o b.o b.s
# archive: x.a b.o
# rv: ld -g -o linked a.o --library x.a
# same: linked built
# rv: ld -g --gc-sections --no-relax --origin 0x80000000 -o linked a.o b.o
# rv: build -g --gc-sections --no-relax --origin 0x80000000 -o built a.s b.s
# same: linked built
#--- a.s
.globl _start
_start:
    li a0, 3
    call square
    li a7, 93
    ecall
.section .text.unused, "ax"
unused: ret
#--- b.s
.globl square
square:
    mul a0, a0, a0
    ret
.data
.word square
