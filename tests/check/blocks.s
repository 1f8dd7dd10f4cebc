# A directive that ends or parts a block is no fault where the one that begins it is refused, nor are the uses of a macro or a name
# that both parts of a condition define; one that has no beginning is.
# rv: check a.s
# status: 1
# errors:
# out is: a
# rv: check b.s
# status: 1
# errors:
# out is: b
#--- a.s
.globl _start
_start:
.rept 3
nop
.endr
.if 1
x: nop
.else
x: nop
foo
.endif
.irp r, a0, a1
addi \r, \r, 1
.endr
.macro twice
.macro once
.endm
1: twice
.endr
.ifdef y
.endif
.endif
x: ret
#--- b.s
.globl _start
.macro leave; li a7, 93; ecall; .endm
_start: leave
nop
#--- a
a.s:3: E9 UnsupportedHere
    .rept 3
    ^^^^^
  .rept is left out of this language: write its lines as often, or a loop
a.s:6: E9 UnsupportedHere
    .if 1
    ^^^
  .if is left out of this language: one source for each case does it
a.s:10: E6 UnknownMnemonic
    foo
    ^^^
  foo is the name of no instruction: a label ends with a colon, foo:
a.s:12: E8 UnknownDirective
    .irp r, a0, a1
    ^^^^
  .irp is the name of no directive
a.s:15: E9 UnsupportedHere
    .macro twice
    ^^^^^^
  .macro is left out of this language: write its lines where it is used, or make it a function
a.s:19: E8 UnknownDirective
    .endr
    ^^^^^
  .endr is the name of no directive
a.s:20: E8 UnknownDirective
    .ifdef y
    ^^^^^^
  .ifdef is the name of no directive
a.s:22: E8 UnknownDirective
    .endif
    ^^^^^^
  .endif is the name of no directive
a.s:23: E11 DuplicateLabel
    x: ret
    ^
  x is defined at line 7, and a name has one definition
9 faults
#--- b
b.s:2: E9 UnsupportedHere
    .macro leave; li a7, 93; ecall; .endm
    ^^^^^^
  .macro is left out of this language: write its lines where it is used, or make it a function
1 fault
