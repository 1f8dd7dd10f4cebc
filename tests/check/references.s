# Each reference to a name without a meaning, also where it stands in a section that is not loaded.
# rv: check a.s
# status: 1
# errors:
# out is: a
# rv: check b.s
# status: 1
# errors:
# out is: b
#--- a.s
.globl _start
_start: call f
call f
la a0, f
.data
.word f
#--- b.s
.globl _start
_start: la a0, h
ret
.section .debug_x
h: .word 1
#--- a
L5 Undefined f
  a.s:2:
    _start: call f
                 ^
  a.s:3:
    call f
         ^
  a.s:4:
    la a0, f
           ^
  a.s:6:
    .word f
          ^
  the name means nothing here: a source has to define it in a loaded section, with .globl
1 fault
#--- b
L5 Undefined h
  b.s:2:
    _start: la a0, h
                   ^
  the name means nothing here: a source has to define it in a loaded section, with .globl; b.s:5 defines it, but not so
1 fault
