# Beside a name without a meaning stands one that is spelt almost so, or that another source keeps to itself.
# rv: check a.s b.s
# status: 1
# errors:
# out is: near
# rv: check c.s b.s
# status: 1
# errors:
# out is: kept
#--- a.s
.globl _start
_start: call print_nubmer
ret
#--- c.s
.globl _start
_start: tail print_number
#--- b.s
nop
print_number: ret
#--- near
L5 Undefined print_nubmer
  a.s:2:
    _start: call print_nubmer
                 ^^^^^^^^^^^^
  the name means nothing here: a source has to define it in a loaded section, with .globl; print_number at b.s:2 is spelt almost so
1 fault
#--- kept
L5 Undefined print_number
  c.s:2:
    _start: tail print_number
                 ^^^^^^^^^^^^
  the name means nothing here: a source has to define it in a loaded section, with .globl; b.s:2 defines it, but not so
1 fault
