# Copies constants to memory, turns them round there, and writes both.
.text
.globl main
main:
    addi sp, sp, -16
    sd ra, 0(sp)
    la a0, given
    la a1, copy
    li a2, 4
1:  ld t0, 0(a0)            # eight bytes at a time
    sd t0, 0(a1)
    addi a0, a0, 8
    addi a1, a1, 8
    addi a2, a2, -1
    bnez a2, 1b
    la a0, copy
    call put_text
    la a0, copy             # the first and the last character, and so on
    addi a1, a0, 29
2:  bgeu a0, a1, 3f
    lbu t0, 0(a0)
    lbu t1, 0(a1)
    sb t1, 0(a0)
    sb t0, 0(a1)
    addi a0, a0, 1
    addi a1, a1, -1
    j 2b
3:  la a0, copy
    call put_text
    li a0, 0
    ld ra, 0(sp)
    addi sp, sp, 16
    ret

.section .rodata
.balign 8
given: .ascii "a board has memory and devices\n\0"

.bss
.balign 8
copy: .zero 32
