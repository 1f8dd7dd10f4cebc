# Writes a byte from the stack.
# text: 93028006 a30f51fe 13051000 9305f1ff 13061000 93080004 73000000 13050000 9308d005 73000000
# console: h
# errors:
.option norvc
.globl _start
_start: li t0, 104
sb t0, -1(sp)
li a0, 1
addi a1, sp, -1
li a2, 1
li a7, 64
ecall
li a0, 0
li a7, 93
ecall
