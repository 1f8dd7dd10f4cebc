# Both definitions of a global name; the local one of a third source is none of them.
# rv: check a.s b.s c.s
# status: 1
# errors:
# out is: wanted
#--- a.s
.globl _start
_start: call f
li a7, 93
ecall
.globl f
f: ret
#--- b.s
f: ret
#--- c.s
nop
.globl f
nop; f: ret
#--- wanted
L6 Duplicate f
  a.s:6:
    f: ret
    ^
  c.s:3:
    nop; f: ret
         ^
  one source alone may make a name global and define it; .weak in one gives way
1 fault
