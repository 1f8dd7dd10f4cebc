# A program in the L2 memory of QEMU's machine sifive_u, at 0x8000000. All its processors begin here, each with its number
# in a0; the machine has no test device, but pin 10 of the GPIO resets it, which ends QEMU with -no-reboot.
.equ UART, 0x10010000       # data to send, whose bit 31 is 1 while they are full; at 8 bit 0 lets it send
.equ GPIO, 0x10060000       # at 8 which pins it drives, at 12 their values

.text
.globl _start
_start:
    bnez a0, _start         # only the first processor goes on
    la sp, stack_top
    li t0, UART
    li t1, 1
    sw t1, 8(t0)
    la a0, greeting
    call put_text
    li t0, GPIO
    sw zero, 12(t0)
    li t1, 1 << 10
    sw t1, 8(t0)
1:  j 1b

# writes the text at a0, up to its zero
put_text:
    li t0, UART
1:  lbu t1, 0(a0)
    beqz t1, 3f
2:  lw t2, 0(t0)
    bltz t2, 2b
    sw t1, 0(t0)
    addi a0, a0, 1
    j 1b
3:  ret

.section .rodata
greeting: .asciz "hello from the L2\n"

.bss
.balign 16
.zero 4096
stack_top:
