# A reference without a meaning is refused, the first by file, section and relocation; a second definition comes
# before it.
# rv: build -o exe reads.s
# fault: L5 Undefined f
# rv: build -o exe reads.s unloaded.s
# fault: L5 Undefined f
# rv: build -o exe reads.s local.s
# fault: L5 Undefined f
# rv: build -o exe reads.s sections.s
# fault: L5 Undefined c
# rv: build -o exe reads.s difference.s
# fault: L5 Undefined a
# rv: build -o exe seven.s sections.s reads.s
# fault: L6 Duplicate f
#--- reads.s
.option norvc
.globl _start
_start: lui a1, 17
lw a1, 0(a1)
lw a0, 0(a1)
li a7, 93
ecall
.data
p: .word f
v: .byte 1
#--- seven.s
.option norvc
.globl f, g
.data
v: .byte 3
.balign 4
f: .word 7
g: .word v
#--- unloaded.s
.globl f
.section notes
f: .word 1
#--- local.s
.data
f: .word 1
#--- sections.s
.globl f
.section .rodata
f: .word 1, c
.data
.word a - b
#--- difference.s
.globl f
.data
f: .word a - b, c
