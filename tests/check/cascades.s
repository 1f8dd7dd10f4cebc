# What follows from a section that could not be opened, and the lines of a macro and its uses, are no faults of their own.
# rv: check a.s
# status: 1
# errors:
# out is: a
# rv: check b.s
# status: 1
# errors:
# out is: b
#--- a.s
.globl _start
_start: ret
.dta
x: .word 1
y: .word 2
.byte 3
.text
.word 4
foo
#--- b.s
.globl _start
.macro twice reg
add \reg, \reg, \reg
foo
.endm
_start: ret
twice a0
bar
#--- a
a.s:3: E8 UnknownDirective
    .dta
    ^^^^
  .dta is the name of no directive: .data is spelt almost so
a.s:9: E6 UnknownMnemonic
    foo
    ^^^
  foo is the name of no instruction: a label ends with a colon, foo:
a.s:8: E15 WrongSection
    .word 4
    ^^^^^
  .word cannot stand in this section: instructions go to .text, data to .data or .rodata
3 faults
#--- b
b.s:2: E9 UnsupportedHere
    .macro twice reg
    ^^^^^^
  .macro is left out of this language: write its lines where it is used, or make it a function
b.s:8: E6 UnknownMnemonic
    bar
    ^^^
  bar is the name of no instruction: a label ends with a colon, bar:
2 faults
