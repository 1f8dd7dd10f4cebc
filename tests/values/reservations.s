# Stores that are done only where their bytes are reserved. A row is a routine, and a0 and a3 after it; a2 is 5
# before it, and at s2 stands 8001FFFE00FF807Fh. The status is the number of the first row that differs, from 1, or 0.
# The values are those of qemu-riscv64 7.2: of this very file GNU as and ld 2.40 (-Ttext=0x10000) make a program that
# exits with 0 there.
# exit: 0
.option norvc
.globl _start
_start:
    la s0, rows
    la s1, end
    li s3, 0                    # the number of the row
    li s4, 0x8001fffe00ff807f
1:  addi s3, s3, 1
    la s2, place
    sd s4, 0(s2)
    li a2, 5
    li a3, 0
    ld t0, 0(s0)
    jalr t0
    ld t0, 8(s0)
    bne a0, t0, 2f
    ld t0, 16(s0)
    bne a3, t0, 2f
    addi s0, s0, 24
    bne s0, s1, 1b
    li s3, 0
2:  mv a0, s3
    li a7, 93
    ecall

.data
    .balign 8
place:
    .dword 0

.section .rodata
    .balign 8
rows:

# Alone, after an lr of another width or elsewhere sc stores nothing.
.text; 1: sc.w a0, a2, (s2); lw a3, 0(s2); ret
.section .rodata; .dword 1b, 1, 0xff807f
.text; 1: sc.d a0, a2, (s2); ld a3, 0(s2); ret
.section .rodata; .dword 1b, 1, -0x7ffe0001ff007f81
.text; 1: lr.w zero, (s2); sc.d a0, a2, (s2); ld a3, 0(s2); ret
.section .rodata; .dword 1b, 1, -0x7ffe0001ff007f81
.text; 1: lr.w a3, (s2); addi s2, s2, 4; sc.w a0, a2, (s2); ret
.section .rodata; .dword 1b, 1, 0xff807f

# It stores what an lr of its width reserved.
.text; 1: lr.w zero, (s2); sc.w a0, a2, (s2); lw a3, 0(s2); ret
.section .rodata; .dword 1b, 0, 5
.text; 1: lr.d zero, (s2); sc.d a0, a2, (s2); ld a3, 0(s2); ret
.section .rodata; .dword 1b, 0, 5

# The latest lr counts.
.text; 1: lr.w zero, (s2); lr.d a3, (s2); sc.w a0, a2, (s2); ret
.section .rodata; .dword 1b, 1, -0x7ffe0001ff007f81
.text; 1: lr.d zero, (s2); lr.w a3, (s2); sc.w a0, a2, (s2); ret
.section .rodata; .dword 1b, 0, 0xff807f

# An sc takes the reservation, whether it succeeds or not.
.text; 1: lr.w zero, (s2); sc.w a3, a2, (s2); sc.w a0, a2, (s2); ret
.section .rodata; .dword 1b, 1, 0
.text; 1: lr.w zero, (s2); sc.d a3, a2, (s2); sc.w a0, a2, (s2); ret
.section .rodata; .dword 1b, 1, 1

# lr.w extends the sign.
.text; 1: addi s2, s2, 4; lr.w a3, (s2); sc.w a0, a2, (s2); ret
.section .rodata; .dword 1b, 0, -0x7ffe0002

# Operands are read before the result is written.
.text; 1: lr.d s2, (s2); mv a3, s2; li a0, 0; ret
.section .rodata; .dword 1b, 0, -0x7ffe0001ff007f81
.text; 1: amoadd.d a2, a2, (s2); mv a0, a2; ld a3, 0(s2); ret
.section .rodata; .dword 1b, -0x7ffe0001ff007f81, -0x7ffe0001ff007f7c
.text; 1: lr.w zero, (s2); sc.w a2, a2, (s2); mv a0, a2; lw a3, 0(s2); ret
.section .rodata; .dword 1b, 0, 5

end:
