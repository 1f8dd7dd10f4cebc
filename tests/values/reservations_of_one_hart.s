# More stores that are done only where their bytes are reserved, by docs/manual/platform.md alone: qemu-riscv64 compares
# the bytes and no widths. A row is a routine, and a0 and a3 after it; a2 is 5 before it, and at s2 stands
# 8001FFFE00FF807Fh. The status is the number of the first row that differs, from 1, or 0.
# exit: 0
.option norvc
.globl _start
_start:
    la s0, rows
    la s1, end
    li s3, 0                    # the number of the row
    li s4, 0x8001fffe00ff807f
1:  addi s3, s3, 1
    la s2, place
    sd s4, 0(s2)
    li a2, 5
    li a3, 0
    ld t0, 0(s0)
    jalr t0
    ld t0, 8(s0)
    bne a0, t0, 2f
    ld t0, 16(s0)
    bne a3, t0, 2f
    addi s0, s0, 24
    bne s0, s1, 1b
    li s3, 0
2:  mv a0, s3
    li a7, 93
    ecall

.data
    .balign 8
place:
    .dword 0

.section .rodata
    .balign 8
rows:

# An lr of another width does not count.
.text; 1: lr.d zero, (s2); sc.w a0, a2, (s2); lw a3, 0(s2); ret
.section .rodata; .dword 1b, 1, 0xff807f

# Stores and operations between do not take the reservation.
.text; 1: lr.w a3, (s2); sw zero, 0(s2); sc.w a0, a2, (s2); ret
.section .rodata; .dword 1b, 0, 0xff807f
.text; 1: lr.w a3, (s2); amoadd.w zero, a2, (s2); sc.w a0, a2, (s2); ret
.section .rodata; .dword 1b, 0, 0xff807f

end:
