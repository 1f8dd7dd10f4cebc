# Without a fault: the sizes of the regions.
# rv: check a.s
# errors:
# out is: wanted
#--- a.s
.globl _start
_start: li a0, 1
la a1, msg
li a7, 93
ecall
.section .rodata
msg: .ascii "hello"
.data
.globl v
v: .word 1
.bss
.globl w
w: .zero 10
#--- wanted
text 18, rodata 5, data 4, bss 10 bytes
