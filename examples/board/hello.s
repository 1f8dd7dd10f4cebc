# Writes over the UART.
.text
.globl main
main:
    addi sp, sp, -16
    sd ra, 0(sp)
    la a0, text
    call put_text
    li a0, 0
    ld ra, 0(sp)
    addi sp, sp, 16
    ret

.section .rodata
text: .asciz "hello from the board\n"
