# A number that is stored over the end of a page of variables is loaded there again; by hand.
# exit: 9
.globl _start
_start: lui a1, 18
lui a0, 127
slli a0, a0, 28
addi a0, a0, 5
sd a0, -4(a1)
ld a2, -4(a1)
sub a0, a2, a0
lbu a1, -4(a1)
add a0, a0, a1
addi a0, a0, 4
li a7, 93
ecall
.data
.zero 4100
