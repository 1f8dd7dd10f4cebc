# A second definition is refused, the first by file and symbol. A definition counts also in a section without an
# address, and this fault comes before that of an undefined name.
# rv: build -o exe reads.s seven.s both.s
# fault: L6 Duplicate g
# rv: build -o exe reads.s both.s seven.s
# fault: L6 Duplicate f
# rv: build -o exe reads.s seven.s unloaded.s
# fault: L6 Duplicate f
# rv: build -o exe reads.s unloaded.s seven.s
# fault: L6 Duplicate f
#--- reads.s
.option norvc
.globl _start
_start: lui a1, 17
lw a1, 0(a1)
lw a0, 0(a1)
li a7, 93
ecall
.data
p: .word f
v: .byte 1
#--- seven.s
.option norvc
.globl f, g
.data
v: .byte 3
.balign 4
f: .word 7
g: .word v
#--- both.s
.globl f, g
.data
g: f: .word 1
#--- unloaded.s
.globl f
.section notes
f: .word h
