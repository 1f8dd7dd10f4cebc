# A branch over a parcel, by its distance.
# rv: build -o exe a.s
# text: 11c1 0100 9308d005 73000000
# rv: objdump --raw exe
# out has: c.beqz a0,.+4
# out has: c.nop
# out has: addi a7,zero,93
# out has: ecall
#--- a.s
.globl _start
_start: beqz a0, b
nop
b: li a7, 93
ecall
