# What the guest writes to descriptor 2 goes to standard error, and only where that is asked for.
# rv: run a.s
# status: 3
# out: onetwoend
# errors:
# rv: run --stderr a.s
# status: 3
# out: oneend
# errors: two
# rv: run --stderr --until 0x20000 a.s
# status: 3
# out: oneend
# errors: two
# rv: stats --stderr --json --limit 7 a.s
# status: 125
# out: one
# errors is: counts
#--- a.s
.globl _start
_start: li a0, 1; la a1, texts; li a2, 3; li a7, 64
  ecall
  li a0, 2; addi a1, a1, 3; li a2, 3
  ecall
  li a0, 1; addi a1, a1, 3; li a2, 3
  ecall
  li a7, 93
  ecall
.section .rodata
texts: .ascii "onetwoend"
#--- counts
{"branches_not_taken":0,"branches_taken":0,"bytes_read":0,"bytes_written":0,"calls":[],"compressed":3,"deepest_stack":0,"end":"Limit","instructions":7,"kinds":{"arithmetic":6,"atomic":0,"branch":0,"jump":0,"load":0,"other":1,"store":0},"loads":0,"mnemonics":{"addi":5,"auipc":1,"ecall":1},"status":null,"stores":0}
