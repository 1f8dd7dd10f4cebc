# Zeros between two sections spell nothing.
# rv: build -o exe a.s
# rv: objdump --raw exe
# status: 1
# error: rv: exe: no raw listing
#--- a.s
.globl _start
_start: nop
.section .text.b,"ax"
.align 4
nop
