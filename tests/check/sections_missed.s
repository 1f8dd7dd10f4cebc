# Instructions in one section that cannot have them are one fault, as the section's directive is what is missing; in another
# section it is another.
# rv: check a.s
# status: 1
# errors:
# out is: a
#--- a.s
.data
x: .word 5
.globl _start
_start: lw a0, x
li a7, 93
ecall
.rodata
nop
nop
.text
.word 1
nop
.word 2
#--- a
a.s:4: E15 WrongSection
    _start: lw a0, x
            ^^
  lw cannot stand in this section: instructions go to .text, data to .data or .rodata
a.s:8: E15 WrongSection
    nop
    ^^^
  nop cannot stand in this section: instructions go to .text, data to .data or .rodata
a.s:11: E15 WrongSection
    .word 1
    ^^^^^
  .word cannot stand in this section: instructions go to .text, data to .data or .rodata
3 faults
