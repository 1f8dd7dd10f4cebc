# A name without a meaning: its first reference in each source that does not define it.
# rv: check a.s b.s c.s
# status: 1
# errors:
# out is: wanted
#--- a.s
.globl _start
_start: call f
li a7, 93
ecall
#--- b.s
.globl g
g: ret
#--- c.s
h: la a0, f
ret
#--- wanted
L5 Undefined f
  a.s:2:
    _start: call f
                 ^
  c.s:1:
    h: la a0, f
              ^
  the name means nothing here: a source has to define it in a loaded section, with .globl
1 fault
