# Atomic operations. A row is a routine, the 8 bytes before it, a2, and a0 and the 8 bytes after it.
# The status is the number of the first row that differs, from 1, or 0.
# The values are those of qemu-riscv64 7.2: of this very file GNU as and ld 2.40 (-Ttext=0x10000) make a program that
# exits with 0 there.
# exit: 0
.option norvc
.globl _start
_start:
    la s0, rows
    la s1, end
    li s3, 0                    # the number of the row
    la s2, place
1:  addi s3, s3, 1
    ld t0, 0(s0)
    ld a1, 8(s0)
    ld a2, 16(s0)
    sd a1, 0(s2)
    jalr t0
    ld a3, 0(s2)
    ld t0, 24(s0)
    bne a0, t0, 2f
    ld t0, 32(s0)
    bne a3, t0, 2f
    addi s0, s0, 40
    bne s0, s1, 1b
    li s3, 0
2:  mv a0, s3
    li a7, 93
    ecall

.data
    .balign 8
place:
    .dword 0

.section .rodata
    .balign 8
rows:

.text
amoswap.w: amoswap.w a0, a2, (s2); ret
.section .rodata
    .dword amoswap.w, 0, 0, 0, 0
    .dword amoswap.w, 1, -1, 1, 0xffffffff
    .dword amoswap.w, -1, 1, -1, -0xffffffff
    .dword amoswap.w, 0x7fffffff, 1, 0x7fffffff, 1
    .dword amoswap.w, 0x80000000, 0x7fffffff, -0x80000000, 0x7fffffff
    .dword amoswap.w, -0x8000000000000000, 0x7fffffffffffffff, 0, -0x7fffffff00000001
    .dword amoswap.w, 0x7fffffffffffffff, -0x8000000000000000, -1, 0x7fffffff00000000
    .dword amoswap.w, 0x123456789abcdef0, 0xfedcba987654321, -0x65432110, 0x1234567887654321

.text
amoadd.w: amoadd.w a0, a2, (s2); ret
.section .rodata
    .dword amoadd.w, 0, 0, 0, 0
    .dword amoadd.w, 1, -1, 1, 0
    .dword amoadd.w, -1, 1, -1, -0x100000000
    .dword amoadd.w, 0x7fffffff, 1, 0x7fffffff, 0x80000000
    .dword amoadd.w, 0x80000000, 0x7fffffff, -0x80000000, 0xffffffff
    .dword amoadd.w, -0x8000000000000000, 0x7fffffffffffffff, 0, -0x7fffffff00000001
    .dword amoadd.w, 0x7fffffffffffffff, -0x8000000000000000, -1, 0x7fffffffffffffff
    .dword amoadd.w, 0x123456789abcdef0, 0xfedcba987654321, -0x65432110, 0x1234567822222211

.text
amoxor.w: amoxor.w a0, a2, (s2); ret
.section .rodata
    .dword amoxor.w, 0, 0, 0, 0
    .dword amoxor.w, 1, -1, 1, 0xfffffffe
    .dword amoxor.w, -1, 1, -1, -2
    .dword amoxor.w, 0x7fffffff, 1, 0x7fffffff, 0x7ffffffe
    .dword amoxor.w, 0x80000000, 0x7fffffff, -0x80000000, 0xffffffff
    .dword amoxor.w, -0x8000000000000000, 0x7fffffffffffffff, 0, -0x7fffffff00000001
    .dword amoxor.w, 0x7fffffffffffffff, -0x8000000000000000, -1, 0x7fffffffffffffff
    .dword amoxor.w, 0x123456789abcdef0, 0xfedcba987654321, -0x65432110, 0x123456781dd99dd1

.text
amoand.w: amoand.w a0, a2, (s2); ret
.section .rodata
    .dword amoand.w, 0, 0, 0, 0
    .dword amoand.w, 1, -1, 1, 1
    .dword amoand.w, -1, 1, -1, -0xffffffff
    .dword amoand.w, 0x7fffffff, 1, 0x7fffffff, 1
    .dword amoand.w, 0x80000000, 0x7fffffff, -0x80000000, 0
    .dword amoand.w, -0x8000000000000000, 0x7fffffffffffffff, 0, -0x8000000000000000
    .dword amoand.w, 0x7fffffffffffffff, -0x8000000000000000, -1, 0x7fffffff00000000
    .dword amoand.w, 0x123456789abcdef0, 0xfedcba987654321, -0x65432110, 0x1234567882244220

.text
amoor.w: amoor.w a0, a2, (s2); ret
.section .rodata
    .dword amoor.w, 0, 0, 0, 0
    .dword amoor.w, 1, -1, 1, 0xffffffff
    .dword amoor.w, -1, 1, -1, -1
    .dword amoor.w, 0x7fffffff, 1, 0x7fffffff, 0x7fffffff
    .dword amoor.w, 0x80000000, 0x7fffffff, -0x80000000, 0xffffffff
    .dword amoor.w, -0x8000000000000000, 0x7fffffffffffffff, 0, -0x7fffffff00000001
    .dword amoor.w, 0x7fffffffffffffff, -0x8000000000000000, -1, 0x7fffffffffffffff
    .dword amoor.w, 0x123456789abcdef0, 0xfedcba987654321, -0x65432110, 0x123456789ffddff1

.text
amomin.w: amomin.w a0, a2, (s2); ret
.section .rodata
    .dword amomin.w, 0, 0, 0, 0
    .dword amomin.w, 1, -1, 1, 0xffffffff
    .dword amomin.w, -1, 1, -1, -1
    .dword amomin.w, 0x7fffffff, 1, 0x7fffffff, 1
    .dword amomin.w, 0x80000000, 0x7fffffff, -0x80000000, 0x80000000
    .dword amomin.w, -0x8000000000000000, 0x7fffffffffffffff, 0, -0x7fffffff00000001
    .dword amomin.w, 0x7fffffffffffffff, -0x8000000000000000, -1, 0x7fffffffffffffff
    .dword amomin.w, 0x123456789abcdef0, 0xfedcba987654321, -0x65432110, 0x1234567887654321

.text
amomax.w: amomax.w a0, a2, (s2); ret
.section .rodata
    .dword amomax.w, 0, 0, 0, 0
    .dword amomax.w, 1, -1, 1, 1
    .dword amomax.w, -1, 1, -1, -0xffffffff
    .dword amomax.w, 0x7fffffff, 1, 0x7fffffff, 0x7fffffff
    .dword amomax.w, 0x80000000, 0x7fffffff, -0x80000000, 0x7fffffff
    .dword amomax.w, -0x8000000000000000, 0x7fffffffffffffff, 0, -0x8000000000000000
    .dword amomax.w, 0x7fffffffffffffff, -0x8000000000000000, -1, 0x7fffffff00000000
    .dword amomax.w, 0x123456789abcdef0, 0xfedcba987654321, -0x65432110, 0x123456789abcdef0

.text
amominu.w: amominu.w a0, a2, (s2); ret
.section .rodata
    .dword amominu.w, 0, 0, 0, 0
    .dword amominu.w, 1, -1, 1, 1
    .dword amominu.w, -1, 1, -1, -0xffffffff
    .dword amominu.w, 0x7fffffff, 1, 0x7fffffff, 1
    .dword amominu.w, 0x80000000, 0x7fffffff, -0x80000000, 0x7fffffff
    .dword amominu.w, -0x8000000000000000, 0x7fffffffffffffff, 0, -0x8000000000000000
    .dword amominu.w, 0x7fffffffffffffff, -0x8000000000000000, -1, 0x7fffffff00000000
    .dword amominu.w, 0x123456789abcdef0, 0xfedcba987654321, -0x65432110, 0x1234567887654321

.text
amomaxu.w: amomaxu.w a0, a2, (s2); ret
.section .rodata
    .dword amomaxu.w, 0, 0, 0, 0
    .dword amomaxu.w, 1, -1, 1, 0xffffffff
    .dword amomaxu.w, -1, 1, -1, -1
    .dword amomaxu.w, 0x7fffffff, 1, 0x7fffffff, 0x7fffffff
    .dword amomaxu.w, 0x80000000, 0x7fffffff, -0x80000000, 0x80000000
    .dword amomaxu.w, -0x8000000000000000, 0x7fffffffffffffff, 0, -0x7fffffff00000001
    .dword amomaxu.w, 0x7fffffffffffffff, -0x8000000000000000, -1, 0x7fffffffffffffff
    .dword amomaxu.w, 0x123456789abcdef0, 0xfedcba987654321, -0x65432110, 0x123456789abcdef0

.text
amoswap.d: amoswap.d a0, a2, (s2); ret
.section .rodata
    .dword amoswap.d, 0, 0, 0, 0
    .dword amoswap.d, 1, -1, 1, -1
    .dword amoswap.d, -1, 1, -1, 1
    .dword amoswap.d, 0x7fffffff, 1, 0x7fffffff, 1
    .dword amoswap.d, 0x80000000, 0x7fffffff, 0x80000000, 0x7fffffff
    .dword amoswap.d, -0x8000000000000000, 0x7fffffffffffffff, -0x8000000000000000, 0x7fffffffffffffff
    .dword amoswap.d, 0x7fffffffffffffff, -0x8000000000000000, 0x7fffffffffffffff, -0x8000000000000000
    .dword amoswap.d, 0x123456789abcdef0, 0xfedcba987654321, 0x123456789abcdef0, 0xfedcba987654321

.text
amoadd.d: amoadd.d a0, a2, (s2); ret
.section .rodata
    .dword amoadd.d, 0, 0, 0, 0
    .dword amoadd.d, 1, -1, 1, 0
    .dword amoadd.d, -1, 1, -1, 0
    .dword amoadd.d, 0x7fffffff, 1, 0x7fffffff, 0x80000000
    .dword amoadd.d, 0x80000000, 0x7fffffff, 0x80000000, 0xffffffff
    .dword amoadd.d, -0x8000000000000000, 0x7fffffffffffffff, -0x8000000000000000, -1
    .dword amoadd.d, 0x7fffffffffffffff, -0x8000000000000000, 0x7fffffffffffffff, -1
    .dword amoadd.d, 0x123456789abcdef0, 0xfedcba987654321, 0x123456789abcdef0, 0x2222222222222211

.text
amoxor.d: amoxor.d a0, a2, (s2); ret
.section .rodata
    .dword amoxor.d, 0, 0, 0, 0
    .dword amoxor.d, 1, -1, 1, -2
    .dword amoxor.d, -1, 1, -1, -2
    .dword amoxor.d, 0x7fffffff, 1, 0x7fffffff, 0x7ffffffe
    .dword amoxor.d, 0x80000000, 0x7fffffff, 0x80000000, 0xffffffff
    .dword amoxor.d, -0x8000000000000000, 0x7fffffffffffffff, -0x8000000000000000, -1
    .dword amoxor.d, 0x7fffffffffffffff, -0x8000000000000000, 0x7fffffffffffffff, -1
    .dword amoxor.d, 0x123456789abcdef0, 0xfedcba987654321, 0x123456789abcdef0, 0x1dd99dd11dd99dd1

.text
amoand.d: amoand.d a0, a2, (s2); ret
.section .rodata
    .dword amoand.d, 0, 0, 0, 0
    .dword amoand.d, 1, -1, 1, 1
    .dword amoand.d, -1, 1, -1, 1
    .dword amoand.d, 0x7fffffff, 1, 0x7fffffff, 1
    .dword amoand.d, 0x80000000, 0x7fffffff, 0x80000000, 0
    .dword amoand.d, -0x8000000000000000, 0x7fffffffffffffff, -0x8000000000000000, 0
    .dword amoand.d, 0x7fffffffffffffff, -0x8000000000000000, 0x7fffffffffffffff, 0
    .dword amoand.d, 0x123456789abcdef0, 0xfedcba987654321, 0x123456789abcdef0, 0x224422882244220

.text
amoor.d: amoor.d a0, a2, (s2); ret
.section .rodata
    .dword amoor.d, 0, 0, 0, 0
    .dword amoor.d, 1, -1, 1, -1
    .dword amoor.d, -1, 1, -1, -1
    .dword amoor.d, 0x7fffffff, 1, 0x7fffffff, 0x7fffffff
    .dword amoor.d, 0x80000000, 0x7fffffff, 0x80000000, 0xffffffff
    .dword amoor.d, -0x8000000000000000, 0x7fffffffffffffff, -0x8000000000000000, -1
    .dword amoor.d, 0x7fffffffffffffff, -0x8000000000000000, 0x7fffffffffffffff, -1
    .dword amoor.d, 0x123456789abcdef0, 0xfedcba987654321, 0x123456789abcdef0, 0x1ffddff99ffddff1

.text
amomin.d: amomin.d a0, a2, (s2); ret
.section .rodata
    .dword amomin.d, 0, 0, 0, 0
    .dword amomin.d, 1, -1, 1, -1
    .dword amomin.d, -1, 1, -1, -1
    .dword amomin.d, 0x7fffffff, 1, 0x7fffffff, 1
    .dword amomin.d, 0x80000000, 0x7fffffff, 0x80000000, 0x7fffffff
    .dword amomin.d, -0x8000000000000000, 0x7fffffffffffffff, -0x8000000000000000, -0x8000000000000000
    .dword amomin.d, 0x7fffffffffffffff, -0x8000000000000000, 0x7fffffffffffffff, -0x8000000000000000
    .dword amomin.d, 0x123456789abcdef0, 0xfedcba987654321, 0x123456789abcdef0, 0xfedcba987654321

.text
amomax.d: amomax.d a0, a2, (s2); ret
.section .rodata
    .dword amomax.d, 0, 0, 0, 0
    .dword amomax.d, 1, -1, 1, 1
    .dword amomax.d, -1, 1, -1, 1
    .dword amomax.d, 0x7fffffff, 1, 0x7fffffff, 0x7fffffff
    .dword amomax.d, 0x80000000, 0x7fffffff, 0x80000000, 0x80000000
    .dword amomax.d, -0x8000000000000000, 0x7fffffffffffffff, -0x8000000000000000, 0x7fffffffffffffff
    .dword amomax.d, 0x7fffffffffffffff, -0x8000000000000000, 0x7fffffffffffffff, 0x7fffffffffffffff
    .dword amomax.d, 0x123456789abcdef0, 0xfedcba987654321, 0x123456789abcdef0, 0x123456789abcdef0

.text
amominu.d: amominu.d a0, a2, (s2); ret
.section .rodata
    .dword amominu.d, 0, 0, 0, 0
    .dword amominu.d, 1, -1, 1, 1
    .dword amominu.d, -1, 1, -1, 1
    .dword amominu.d, 0x7fffffff, 1, 0x7fffffff, 1
    .dword amominu.d, 0x80000000, 0x7fffffff, 0x80000000, 0x7fffffff
    .dword amominu.d, -0x8000000000000000, 0x7fffffffffffffff, -0x8000000000000000, 0x7fffffffffffffff
    .dword amominu.d, 0x7fffffffffffffff, -0x8000000000000000, 0x7fffffffffffffff, 0x7fffffffffffffff
    .dword amominu.d, 0x123456789abcdef0, 0xfedcba987654321, 0x123456789abcdef0, 0xfedcba987654321

.text
amomaxu.d: amomaxu.d a0, a2, (s2); ret
.section .rodata
    .dword amomaxu.d, 0, 0, 0, 0
    .dword amomaxu.d, 1, -1, 1, -1
    .dword amomaxu.d, -1, 1, -1, -1
    .dword amomaxu.d, 0x7fffffff, 1, 0x7fffffff, 0x7fffffff
    .dword amomaxu.d, 0x80000000, 0x7fffffff, 0x80000000, 0x80000000
    .dword amomaxu.d, -0x8000000000000000, 0x7fffffffffffffff, -0x8000000000000000, -0x8000000000000000
    .dword amomaxu.d, 0x7fffffffffffffff, -0x8000000000000000, 0x7fffffffffffffff, -0x8000000000000000
    .dword amomaxu.d, 0x123456789abcdef0, 0xfedcba987654321, 0x123456789abcdef0, 0x123456789abcdef0

end:
