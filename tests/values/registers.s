# Sums, differences, comparisons, bits and shifts. A row is a routine, a1, a2, and a0 after it.
# The status is the number of the first row that differs, from 1, or 0.
# The values are those of qemu-riscv64 7.2: of this very file GNU as and ld 2.40 (-Ttext=0x10000) make a program that
# exits with 0 there.
# exit: 0
.option norvc
.globl _start
_start:
    la s0, rows
    la s1, end
    li s3, 0                    # the number of the row
1:  addi s3, s3, 1
    ld t0, 0(s0)
    ld a1, 8(s0)
    ld a2, 16(s0)
    jalr t0
    ld t0, 24(s0)
    bne a0, t0, 2f
    addi s0, s0, 32
    bne s0, s1, 1b
    li s3, 0
2:  mv a0, s3
    li a7, 93
    ecall

.section .rodata
    .balign 8
rows:

.text
add: add a0, a1, a2; ret
.section .rodata
    .dword add, 0, 0, 0
    .dword add, 1, -1, 0
    .dword add, -1, 1, 0
    .dword add, -1, -1, -2
    .dword add, 0x7fffffffffffffff, 1, -0x8000000000000000
    .dword add, -0x8000000000000000, -1, 0x7fffffffffffffff
    .dword add, -0x8000000000000000, 0x7fffffffffffffff, -1
    .dword add, 0x7fffffff, 1, 0x80000000
    .dword add, 0x80000000, -1, 0x7fffffff
    .dword add, -0x80000000, 0x100000000, 0x80000000
    .dword add, 0x123456789abcdef0, 0xfedcba987654321, 0x2222222222222211

.text
sub: sub a0, a1, a2; ret
.section .rodata
    .dword sub, 0, 0, 0
    .dword sub, 1, -1, 2
    .dword sub, -1, 1, -2
    .dword sub, -1, -1, 0
    .dword sub, 0x7fffffffffffffff, 1, 0x7ffffffffffffffe
    .dword sub, -0x8000000000000000, -1, -0x7fffffffffffffff
    .dword sub, -0x8000000000000000, 0x7fffffffffffffff, 1
    .dword sub, 0x7fffffff, 1, 0x7ffffffe
    .dword sub, 0x80000000, -1, 0x80000001
    .dword sub, -0x80000000, 0x100000000, -0x180000000
    .dword sub, 0x123456789abcdef0, 0xfedcba987654321, 0x2468acf13579bcf

.text
addw: addw a0, a1, a2; ret
.section .rodata
    .dword addw, 0, 0, 0
    .dword addw, 1, -1, 0
    .dword addw, -1, 1, 0
    .dword addw, -1, -1, -2
    .dword addw, 0x7fffffffffffffff, 1, 0
    .dword addw, -0x8000000000000000, -1, -1
    .dword addw, -0x8000000000000000, 0x7fffffffffffffff, -1
    .dword addw, 0x7fffffff, 1, -0x80000000
    .dword addw, 0x80000000, -1, 0x7fffffff
    .dword addw, -0x80000000, 0x100000000, -0x80000000
    .dword addw, 0x123456789abcdef0, 0xfedcba987654321, 0x22222211

.text
subw: subw a0, a1, a2; ret
.section .rodata
    .dword subw, 0, 0, 0
    .dword subw, 1, -1, 2
    .dword subw, -1, 1, -2
    .dword subw, -1, -1, 0
    .dword subw, 0x7fffffffffffffff, 1, -2
    .dword subw, -0x8000000000000000, -1, 1
    .dword subw, -0x8000000000000000, 0x7fffffffffffffff, 1
    .dword subw, 0x7fffffff, 1, 0x7ffffffe
    .dword subw, 0x80000000, -1, -0x7fffffff
    .dword subw, -0x80000000, 0x100000000, -0x80000000
    .dword subw, 0x123456789abcdef0, 0xfedcba987654321, 0x13579bcf

.text
slt: slt a0, a1, a2; ret
.section .rodata
    .dword slt, 0, 0, 0
    .dword slt, 1, -1, 0
    .dword slt, -1, 1, 1
    .dword slt, -1, -1, 0
    .dword slt, 0x7fffffffffffffff, 1, 0
    .dword slt, -0x8000000000000000, -1, 1
    .dword slt, -0x8000000000000000, 0x7fffffffffffffff, 1
    .dword slt, 0x7fffffff, 1, 0
    .dword slt, 0x80000000, -1, 0
    .dword slt, -0x80000000, 0x100000000, 1
    .dword slt, 0x123456789abcdef0, 0xfedcba987654321, 0

.text
sltu: sltu a0, a1, a2; ret
.section .rodata
    .dword sltu, 0, 0, 0
    .dword sltu, 1, -1, 1
    .dword sltu, -1, 1, 0
    .dword sltu, -1, -1, 0
    .dword sltu, 0x7fffffffffffffff, 1, 0
    .dword sltu, -0x8000000000000000, -1, 1
    .dword sltu, -0x8000000000000000, 0x7fffffffffffffff, 0
    .dword sltu, 0x7fffffff, 1, 0
    .dword sltu, 0x80000000, -1, 1
    .dword sltu, -0x80000000, 0x100000000, 0
    .dword sltu, 0x123456789abcdef0, 0xfedcba987654321, 0

.text
xor: xor a0, a1, a2; ret
.section .rodata
    .dword xor, 0, 0, 0
    .dword xor, 1, -1, -2
    .dword xor, -1, 1, -2
    .dword xor, -1, -1, 0
    .dword xor, 0x7fffffffffffffff, 1, 0x7ffffffffffffffe
    .dword xor, -0x8000000000000000, -1, 0x7fffffffffffffff
    .dword xor, -0x8000000000000000, 0x7fffffffffffffff, -1
    .dword xor, 0x7fffffff, 1, 0x7ffffffe
    .dword xor, 0x80000000, -1, -0x80000001
    .dword xor, -0x80000000, 0x100000000, -0x180000000
    .dword xor, 0x123456789abcdef0, 0xfedcba987654321, 0x1dd99dd11dd99dd1

.text
or: or a0, a1, a2; ret
.section .rodata
    .dword or, 0, 0, 0
    .dword or, 1, -1, -1
    .dword or, -1, 1, -1
    .dword or, -1, -1, -1
    .dword or, 0x7fffffffffffffff, 1, 0x7fffffffffffffff
    .dword or, -0x8000000000000000, -1, -1
    .dword or, -0x8000000000000000, 0x7fffffffffffffff, -1
    .dword or, 0x7fffffff, 1, 0x7fffffff
    .dword or, 0x80000000, -1, -1
    .dword or, -0x80000000, 0x100000000, -0x80000000
    .dword or, 0x123456789abcdef0, 0xfedcba987654321, 0x1ffddff99ffddff1

.text
and: and a0, a1, a2; ret
.section .rodata
    .dword and, 0, 0, 0
    .dword and, 1, -1, 1
    .dword and, -1, 1, 1
    .dword and, -1, -1, -1
    .dword and, 0x7fffffffffffffff, 1, 1
    .dword and, -0x8000000000000000, -1, -0x8000000000000000
    .dword and, -0x8000000000000000, 0x7fffffffffffffff, 0
    .dword and, 0x7fffffff, 1, 1
    .dword and, 0x80000000, -1, 0x80000000
    .dword and, -0x80000000, 0x100000000, 0x100000000
    .dword and, 0x123456789abcdef0, 0xfedcba987654321, 0x224422882244220

.text
sll: sll a0, a1, a2; ret
.section .rodata
    .dword sll, -0x7fffffff7fffffff, 0, -0x7fffffff7fffffff
    .dword sll, -0x7fffffff7fffffff, 1, 0x100000002
    .dword sll, -0x7fffffff7fffffff, 31, 0x4000000080000000
    .dword sll, -0x7fffffff7fffffff, 32, -0x7fffffff00000000
    .dword sll, -0x7fffffff7fffffff, 33, 0x200000000
    .dword sll, -0x7fffffff7fffffff, 63, -0x8000000000000000
    .dword sll, -0x7fffffff7fffffff, 64, -0x7fffffff7fffffff
    .dword sll, -0x7fffffff7fffffff, -1, -0x8000000000000000
    .dword sll, 0x7fffffff, 1, 0xfffffffe
    .dword sll, -2, 31, -0x100000000
    .dword sll, -2, 95, -0x100000000

.text
srl: srl a0, a1, a2; ret
.section .rodata
    .dword srl, -0x7fffffff7fffffff, 0, -0x7fffffff7fffffff
    .dword srl, -0x7fffffff7fffffff, 1, 0x4000000040000000
    .dword srl, -0x7fffffff7fffffff, 31, 0x100000001
    .dword srl, -0x7fffffff7fffffff, 32, 0x80000000
    .dword srl, -0x7fffffff7fffffff, 33, 0x40000000
    .dword srl, -0x7fffffff7fffffff, 63, 1
    .dword srl, -0x7fffffff7fffffff, 64, -0x7fffffff7fffffff
    .dword srl, -0x7fffffff7fffffff, -1, 1
    .dword srl, 0x7fffffff, 1, 0x3fffffff
    .dword srl, -2, 31, 0x1ffffffff
    .dword srl, -2, 95, 0x1ffffffff

.text
sra: sra a0, a1, a2; ret
.section .rodata
    .dword sra, -0x7fffffff7fffffff, 0, -0x7fffffff7fffffff
    .dword sra, -0x7fffffff7fffffff, 1, -0x3fffffffc0000000
    .dword sra, -0x7fffffff7fffffff, 31, -0xffffffff
    .dword sra, -0x7fffffff7fffffff, 32, -0x80000000
    .dword sra, -0x7fffffff7fffffff, 33, -0x40000000
    .dword sra, -0x7fffffff7fffffff, 63, -1
    .dword sra, -0x7fffffff7fffffff, 64, -0x7fffffff7fffffff
    .dword sra, -0x7fffffff7fffffff, -1, -1
    .dword sra, 0x7fffffff, 1, 0x3fffffff
    .dword sra, -2, 31, -1
    .dword sra, -2, 95, -1

.text
sllw: sllw a0, a1, a2; ret
.section .rodata
    .dword sllw, -0x7fffffff7fffffff, 0, -0x7fffffff
    .dword sllw, -0x7fffffff7fffffff, 1, 2
    .dword sllw, -0x7fffffff7fffffff, 31, -0x80000000
    .dword sllw, -0x7fffffff7fffffff, 32, -0x7fffffff
    .dword sllw, -0x7fffffff7fffffff, 33, 2
    .dword sllw, -0x7fffffff7fffffff, 63, -0x80000000
    .dword sllw, -0x7fffffff7fffffff, 64, -0x7fffffff
    .dword sllw, -0x7fffffff7fffffff, -1, -0x80000000
    .dword sllw, 0x7fffffff, 1, -2
    .dword sllw, -2, 31, 0
    .dword sllw, -2, 95, 0

.text
srlw: srlw a0, a1, a2; ret
.section .rodata
    .dword srlw, -0x7fffffff7fffffff, 0, -0x7fffffff
    .dword srlw, -0x7fffffff7fffffff, 1, 0x40000000
    .dword srlw, -0x7fffffff7fffffff, 31, 1
    .dword srlw, -0x7fffffff7fffffff, 32, -0x7fffffff
    .dword srlw, -0x7fffffff7fffffff, 33, 0x40000000
    .dword srlw, -0x7fffffff7fffffff, 63, 1
    .dword srlw, -0x7fffffff7fffffff, 64, -0x7fffffff
    .dword srlw, -0x7fffffff7fffffff, -1, 1
    .dword srlw, 0x7fffffff, 1, 0x3fffffff
    .dword srlw, -2, 31, 1
    .dword srlw, -2, 95, 1

.text
sraw: sraw a0, a1, a2; ret
.section .rodata
    .dword sraw, -0x7fffffff7fffffff, 0, -0x7fffffff
    .dword sraw, -0x7fffffff7fffffff, 1, -0x40000000
    .dword sraw, -0x7fffffff7fffffff, 31, -1
    .dword sraw, -0x7fffffff7fffffff, 32, -0x7fffffff
    .dword sraw, -0x7fffffff7fffffff, 33, -0x40000000
    .dword sraw, -0x7fffffff7fffffff, 63, -1
    .dword sraw, -0x7fffffff7fffffff, 64, -0x7fffffff
    .dword sraw, -0x7fffffff7fffffff, -1, -1
    .dword sraw, 0x7fffffff, 1, 0x3fffffff
    .dword sraw, -2, 31, -1
    .dword sraw, -2, 95, -1

end:
