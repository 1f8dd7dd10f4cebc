# What cannot stand on the board is refused with a sentence.
# rv: build -o exe refused.s
# rv: run --board virt exe
# status: 1
# error: rv: exe: does not begin at 0x80000000, where the board does: rv build --origin 0x80000000 puts it there
# rv: run --board other refused.s
# status: 2
# errors has: error: there is no board 'other': virt is one
# rv: run --board virt --report refused.s
# status: 2
# errors has: error: --board goes without --report, --state, --until and --stderr
.globl _start
_start: j _start
