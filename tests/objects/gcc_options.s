# The words by which GCC calls an assembler: those that agree with RV64IMAC and lp64 change nothing. -mno-relax leaves each
# call its eight bytes, as the option in the source does; the last of -mrelax and -mno-relax counts.
# rv: as -o plain.o calls.s
# rv: as -v -W -I. --traditional-format -march=rv64imac -mabi=lp64 -misa-spec=20191213 -o said.o calls.s
# out:
# errors:
# same: said.o plain.o
# rv: as -mno-relax -mrelax -fno-pic -mlittle-endian -mno-arch-attr -misa-spec=2.2 -ocalls.o calls.s
# same: calls.o plain.o
# rv: as -mno-relax -march=rv64imac -o long.o calls.s
# rv: as -o option.o option.s
# rv: ld -o exe long.o
# rv: ld -o wanted option.o
# same: exe wanted
# rv: run exe
# exit: 8
# rv: ld -o exe plain.o
# rv: run exe
# exit: 4
# rv: as -mno-relax -o none.o fault.s
# status: 1
# error: rv: fault.s:2: E6 UnknownMnemonic
#--- calls.s
f: li a0, 8
        .globl _start
_start: call g
g:      la   t0, _start
        sub  a0, ra, t0
        li   a7, 93
        ecall
#--- option.s
.option norelax
f: li a0, 8
        .globl _start
_start: call g
g:      la   t0, _start
        sub  a0, ra, t0
        li   a7, 93
        ecall
#--- fault.s
nop
nopp
