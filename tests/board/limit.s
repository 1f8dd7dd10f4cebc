# An instruction that a device answers counts as one.
# rv: run --board virt --limit 5 limit.s
# console: ab
# end: Limit
# rv: run --board virt --limit 4 limit.s
# console: a
# end: Limit
.globl _start
_start:
    lui s0, 0x10000
    li a0, 'a'
    sb a0, 0(s0)
    li a0, 'b'
    sb a0, 0(s0)
    j _start
