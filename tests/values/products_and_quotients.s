# Products, quotients and remainders. A row is a routine, a1, a2, and a0 after it.
# The status is the number of the first row that differs, from 1, or 0.
# The values are those of qemu-riscv64 7.2: of this very file GNU as and ld 2.40 (-Ttext=0x10000) make a program that
# exits with 0 there.
# exit: 0
.option norvc
.globl _start
_start:
    la s0, rows
    la s1, end
    li s3, 0                    # the number of the row
1:  addi s3, s3, 1
    ld t0, 0(s0)
    ld a1, 8(s0)
    ld a2, 16(s0)
    jalr t0
    ld t0, 24(s0)
    bne a0, t0, 2f
    addi s0, s0, 32
    bne s0, s1, 1b
    li s3, 0
2:  mv a0, s3
    li a7, 93
    ecall

.section .rodata
    .balign 8
rows:

.text
mul: mul a0, a1, a2; ret
.section .rodata
    .dword mul, 0, -1, 0
    .dword mul, 1, -1, -1
    .dword mul, -1, -1, 1
    .dword mul, -1, 1, -1
    .dword mul, -0x8000000000000000, -1, -0x8000000000000000
    .dword mul, -0x8000000000000000, -0x8000000000000000, 0
    .dword mul, 0x7fffffffffffffff, 0x7fffffffffffffff, 1
    .dword mul, -0x8000000000000000, 0x7fffffffffffffff, -0x8000000000000000
    .dword mul, 0x80000000, 0x80000000, 0x4000000000000000
    .dword mul, 0x7fffffff, 2, 0xfffffffe
    .dword mul, 0x123456789abcdef0, 0xfedcba987654321, 0x2236d88fe5618cf0

.text
mulh: mulh a0, a1, a2; ret
.section .rodata
    .dword mulh, 0, -1, 0
    .dword mulh, 1, -1, -1
    .dword mulh, -1, -1, 0
    .dword mulh, -1, 1, -1
    .dword mulh, -0x8000000000000000, -1, 0
    .dword mulh, -0x8000000000000000, -0x8000000000000000, 0x4000000000000000
    .dword mulh, 0x7fffffffffffffff, 0x7fffffffffffffff, 0x3fffffffffffffff
    .dword mulh, -0x8000000000000000, 0x7fffffffffffffff, -0x4000000000000000
    .dword mulh, 0x80000000, 0x80000000, 0
    .dword mulh, 0x7fffffff, 2, 0
    .dword mulh, 0x123456789abcdef0, 0xfedcba987654321, 0x121fa00ad77d742

.text
mulhsu: mulhsu a0, a1, a2; ret
.section .rodata
    .dword mulhsu, 0, -1, 0
    .dword mulhsu, 1, -1, 0
    .dword mulhsu, -1, -1, -1
    .dword mulhsu, -1, 1, -1
    .dword mulhsu, -0x8000000000000000, -1, -0x8000000000000000
    .dword mulhsu, -0x8000000000000000, -0x8000000000000000, -0x4000000000000000
    .dword mulhsu, 0x7fffffffffffffff, 0x7fffffffffffffff, 0x3fffffffffffffff
    .dword mulhsu, -0x8000000000000000, 0x7fffffffffffffff, -0x4000000000000000
    .dword mulhsu, 0x80000000, 0x80000000, 0
    .dword mulhsu, 0x7fffffff, 2, 0
    .dword mulhsu, 0x123456789abcdef0, 0xfedcba987654321, 0x121fa00ad77d742

.text
mulhu: mulhu a0, a1, a2; ret
.section .rodata
    .dword mulhu, 0, -1, 0
    .dword mulhu, 1, -1, 0
    .dword mulhu, -1, -1, -2
    .dword mulhu, -1, 1, 0
    .dword mulhu, -0x8000000000000000, -1, 0x7fffffffffffffff
    .dword mulhu, -0x8000000000000000, -0x8000000000000000, 0x4000000000000000
    .dword mulhu, 0x7fffffffffffffff, 0x7fffffffffffffff, 0x3fffffffffffffff
    .dword mulhu, -0x8000000000000000, 0x7fffffffffffffff, 0x3fffffffffffffff
    .dword mulhu, 0x80000000, 0x80000000, 0
    .dword mulhu, 0x7fffffff, 2, 0
    .dword mulhu, 0x123456789abcdef0, 0xfedcba987654321, 0x121fa00ad77d742

.text
mulw: mulw a0, a1, a2; ret
.section .rodata
    .dword mulw, 0, -1, 0
    .dword mulw, 1, -1, -1
    .dword mulw, -1, -1, 1
    .dword mulw, -1, 1, -1
    .dword mulw, -0x8000000000000000, -1, 0
    .dword mulw, -0x8000000000000000, -0x8000000000000000, 0
    .dword mulw, 0x7fffffffffffffff, 0x7fffffffffffffff, 1
    .dword mulw, -0x8000000000000000, 0x7fffffffffffffff, 0
    .dword mulw, 0x80000000, 0x80000000, 0
    .dword mulw, 0x7fffffff, 2, -2
    .dword mulw, 0x123456789abcdef0, 0xfedcba987654321, -0x1a9e7310

.text
div: div a0, a1, a2; ret
.section .rodata
    .dword div, 7, 0, -1
    .dword div, 0, 0, -1
    .dword div, -0x8000000000000000, 0, -1
    .dword div, -0x8000000000000000, -1, -0x8000000000000000
    .dword div, -0x80000000, -1, 0x80000000
    .dword div, 7, 2, 3
    .dword div, -7, 2, -3
    .dword div, 7, -2, -3
    .dword div, -7, -2, 3
    .dword div, 0x80000000, 0x100000000, 0
    .dword div, 0x100000007, 0x100000002, 1
    .dword div, -1, 3, 0

.text
divu: divu a0, a1, a2; ret
.section .rodata
    .dword divu, 7, 0, -1
    .dword divu, 0, 0, -1
    .dword divu, -0x8000000000000000, 0, -1
    .dword divu, -0x8000000000000000, -1, 0
    .dword divu, -0x80000000, -1, 0
    .dword divu, 7, 2, 3
    .dword divu, -7, 2, 0x7ffffffffffffffc
    .dword divu, 7, -2, 0
    .dword divu, -7, -2, 0
    .dword divu, 0x80000000, 0x100000000, 0
    .dword divu, 0x100000007, 0x100000002, 1
    .dword divu, -1, 3, 0x5555555555555555

.text
rem: rem a0, a1, a2; ret
.section .rodata
    .dword rem, 7, 0, 7
    .dword rem, 0, 0, 0
    .dword rem, -0x8000000000000000, 0, -0x8000000000000000
    .dword rem, -0x8000000000000000, -1, 0
    .dword rem, -0x80000000, -1, 0
    .dword rem, 7, 2, 1
    .dword rem, -7, 2, -1
    .dword rem, 7, -2, 1
    .dword rem, -7, -2, -1
    .dword rem, 0x80000000, 0x100000000, 0x80000000
    .dword rem, 0x100000007, 0x100000002, 5
    .dword rem, -1, 3, -1

.text
remu: remu a0, a1, a2; ret
.section .rodata
    .dword remu, 7, 0, 7
    .dword remu, 0, 0, 0
    .dword remu, -0x8000000000000000, 0, -0x8000000000000000
    .dword remu, -0x8000000000000000, -1, -0x8000000000000000
    .dword remu, -0x80000000, -1, -0x80000000
    .dword remu, 7, 2, 1
    .dword remu, -7, 2, 1
    .dword remu, 7, -2, 7
    .dword remu, -7, -2, -7
    .dword remu, 0x80000000, 0x100000000, 0x80000000
    .dword remu, 0x100000007, 0x100000002, 5
    .dword remu, -1, 3, 0

.text
divw: divw a0, a1, a2; ret
.section .rodata
    .dword divw, 7, 0, -1
    .dword divw, 0, 0, -1
    .dword divw, -0x8000000000000000, 0, -1
    .dword divw, -0x8000000000000000, -1, 0
    .dword divw, -0x80000000, -1, -0x80000000
    .dword divw, 7, 2, 3
    .dword divw, -7, 2, -3
    .dword divw, 7, -2, -3
    .dword divw, -7, -2, 3
    .dword divw, 0x80000000, 0x100000000, -1
    .dword divw, 0x100000007, 0x100000002, 3
    .dword divw, -1, 3, 0

.text
divuw: divuw a0, a1, a2; ret
.section .rodata
    .dword divuw, 7, 0, -1
    .dword divuw, 0, 0, -1
    .dword divuw, -0x8000000000000000, 0, -1
    .dword divuw, -0x8000000000000000, -1, 0
    .dword divuw, -0x80000000, -1, 0
    .dword divuw, 7, 2, 3
    .dword divuw, -7, 2, 0x7ffffffc
    .dword divuw, 7, -2, 0
    .dword divuw, -7, -2, 0
    .dword divuw, 0x80000000, 0x100000000, -1
    .dword divuw, 0x100000007, 0x100000002, 3
    .dword divuw, -1, 3, 0x55555555

.text
remw: remw a0, a1, a2; ret
.section .rodata
    .dword remw, 7, 0, 7
    .dword remw, 0, 0, 0
    .dword remw, -0x8000000000000000, 0, 0
    .dword remw, -0x8000000000000000, -1, 0
    .dword remw, -0x80000000, -1, 0
    .dword remw, 7, 2, 1
    .dword remw, -7, 2, -1
    .dword remw, 7, -2, 1
    .dword remw, -7, -2, -1
    .dword remw, 0x80000000, 0x100000000, -0x80000000
    .dword remw, 0x100000007, 0x100000002, 1
    .dword remw, -1, 3, -1

.text
remuw: remuw a0, a1, a2; ret
.section .rodata
    .dword remuw, 7, 0, 7
    .dword remuw, 0, 0, 0
    .dword remuw, -0x8000000000000000, 0, 0
    .dword remuw, -0x8000000000000000, -1, 0
    .dword remuw, -0x80000000, -1, -0x80000000
    .dword remuw, 7, 2, 1
    .dword remuw, -7, 2, 1
    .dword remuw, 7, -2, 7
    .dword remuw, -7, -2, -7
    .dword remuw, 0x80000000, 0x100000000, -0x80000000
    .dword remuw, 0x100000007, 0x100000002, 1
    .dword remuw, -1, 3, 0

end:
