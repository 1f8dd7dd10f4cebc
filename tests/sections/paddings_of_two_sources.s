# Each source pads for itself, and its section begins at its alignment: a jump of four bytes, a gap up to 8, and a
# padding up to 16. By hand.
# text: 6f000001 00000000 0100 13000000 0100 9308d005 73000000
# limit: 3
# exit: 0
#--- a.s
.globl _start; _start: j f
#--- b.s
.globl f; nop; .align 3; f: li a7, 93; ecall
