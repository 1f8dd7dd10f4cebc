# What a program on the board virt needs: a start with a stack, the UART, and an end.
# It is linked first, so that _start stands at 0x80000000.
.equ UART, 0x10000000       # a 16550: data, and five bytes on the line status
.equ TEST, 0x100000         # ends the machine

.text
.globl _start
_start:
    la sp, stack_top
    call main
    li t0, 0x5555           # ends with 0
    beqz a0, 1f
    slli t0, a0, 16         # ends with a0
    li t1, 0x3333
    or t0, t0, t1
1:  li t1, TEST
    sw t0, 0(t1)
2:  j 2b

# writes the byte a0
.globl put
put:
    li t0, UART
1:  lbu t1, 5(t0)
    andi t1, t1, 0x20       # is the transmitter ready?
    beqz t1, 1b
    sb a0, 0(t0)
    ret

# reads a byte
.globl get
get:
    li t0, UART
1:  lbu t1, 5(t0)
    andi t1, t1, 1          # has a byte come?
    beqz t1, 1b
    lbu a0, 0(t0)
    ret

# writes the text at a0, up to its zero
.globl put_text
put_text:
    addi sp, sp, -16
    sd ra, 0(sp)
    sd s0, 8(sp)
    mv s0, a0
1:  lbu a0, 0(s0)
    beqz a0, 2f
    call put
    addi s0, s0, 1
    j 1b
2:  ld ra, 0(sp)
    ld s0, 8(sp)
    addi sp, sp, 16
    ret

# writes the number a0, below 10
.globl put_digit
put_digit:
    addi a0, a0, '0'
    j put

.bss
.balign 16
.zero 4096
stack_top:
