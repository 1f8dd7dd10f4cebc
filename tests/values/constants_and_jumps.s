# Instructions with a constant, branches and jumps, and what is done to x0. A row is a routine, a1, a2, and a0 after it.
# The status is the number of the first row that differs, from 1, or 0.
# The values are those of qemu-riscv64 7.2: of this very file GNU as and ld 2.40 (-Ttext=0x10000) make a program that
# exits with 0 there.
# exit: 0
.option norvc
.globl _start
_start:
    la s0, rows
    la s1, end
    li s3, 0                    # the number of the row
    la s2, place
1:  addi s3, s3, 1
    ld t0, 0(s0)
    ld a1, 8(s0)
    ld a2, 16(s0)
    jalr t0
    ld t0, 24(s0)
    bne a0, t0, 2f
    addi s0, s0, 32
    bne s0, s1, 1b
    li s3, 0
2:  mv a0, s3
    li a7, 93
    ecall

.data
    .balign 8
place:
    .dword 7

.section .rodata
    .balign 8
rows:
.text; 1: addi a0, a1, 2047; ret
.section .rodata; .dword 1b, 0x7fffffffffffffff, 0, -0x7ffffffffffff802
.text; 1: addi a0, a1, -2048; ret
.section .rodata; .dword 1b, -0x8000000000000000, 0, 0x7ffffffffffff800
.text; 1: addi a0, a1, -1; ret
.section .rodata; .dword 1b, 0, 0, -1
.text; 1: addi a0, a1, -1; ret
.section .rodata; .dword 1b, -1, 0, -2
.text; 1: addi a0, a1, 1; ret
.section .rodata; .dword 1b, 0x7fffffff, 0, 0x80000000
.text; 1: slti a0, a1, 2047; ret
.section .rodata; .dword 1b, 0x7fffffffffffffff, 0, 0
.text; 1: slti a0, a1, -2048; ret
.section .rodata; .dword 1b, -0x8000000000000000, 0, 1
.text; 1: slti a0, a1, -1; ret
.section .rodata; .dword 1b, 0, 0, 0
.text; 1: slti a0, a1, -1; ret
.section .rodata; .dword 1b, -1, 0, 0
.text; 1: slti a0, a1, 1; ret
.section .rodata; .dword 1b, 0x7fffffff, 0, 0
.text; 1: sltiu a0, a1, 2047; ret
.section .rodata; .dword 1b, 0x7fffffffffffffff, 0, 0
.text; 1: sltiu a0, a1, -2048; ret
.section .rodata; .dword 1b, -0x8000000000000000, 0, 1
.text; 1: sltiu a0, a1, -1; ret
.section .rodata; .dword 1b, 0, 0, 1
.text; 1: sltiu a0, a1, -1; ret
.section .rodata; .dword 1b, -1, 0, 0
.text; 1: sltiu a0, a1, 1; ret
.section .rodata; .dword 1b, 0x7fffffff, 0, 0
.text; 1: xori a0, a1, 2047; ret
.section .rodata; .dword 1b, 0x7fffffffffffffff, 0, 0x7ffffffffffff800
.text; 1: xori a0, a1, -2048; ret
.section .rodata; .dword 1b, -0x8000000000000000, 0, 0x7ffffffffffff800
.text; 1: xori a0, a1, -1; ret
.section .rodata; .dword 1b, 0, 0, -1
.text; 1: xori a0, a1, -1; ret
.section .rodata; .dword 1b, -1, 0, 0
.text; 1: xori a0, a1, 1; ret
.section .rodata; .dword 1b, 0x7fffffff, 0, 0x7ffffffe
.text; 1: ori a0, a1, 2047; ret
.section .rodata; .dword 1b, 0x7fffffffffffffff, 0, 0x7fffffffffffffff
.text; 1: ori a0, a1, -2048; ret
.section .rodata; .dword 1b, -0x8000000000000000, 0, -0x800
.text; 1: ori a0, a1, -1; ret
.section .rodata; .dword 1b, 0, 0, -1
.text; 1: ori a0, a1, -1; ret
.section .rodata; .dword 1b, -1, 0, -1
.text; 1: ori a0, a1, 1; ret
.section .rodata; .dword 1b, 0x7fffffff, 0, 0x7fffffff
.text; 1: andi a0, a1, 2047; ret
.section .rodata; .dword 1b, 0x7fffffffffffffff, 0, 0x7ff
.text; 1: andi a0, a1, -2048; ret
.section .rodata; .dword 1b, -0x8000000000000000, 0, -0x8000000000000000
.text; 1: andi a0, a1, -1; ret
.section .rodata; .dword 1b, 0, 0, 0
.text; 1: andi a0, a1, -1; ret
.section .rodata; .dword 1b, -1, 0, -1
.text; 1: andi a0, a1, 1; ret
.section .rodata; .dword 1b, 0x7fffffff, 0, 1
.text; 1: addiw a0, a1, 2047; ret
.section .rodata; .dword 1b, 0x7fffffffffffffff, 0, 0x7fe
.text; 1: addiw a0, a1, -2048; ret
.section .rodata; .dword 1b, -0x8000000000000000, 0, -0x800
.text; 1: addiw a0, a1, -1; ret
.section .rodata; .dword 1b, 0, 0, -1
.text; 1: addiw a0, a1, -1; ret
.section .rodata; .dword 1b, -1, 0, -2
.text; 1: addiw a0, a1, 1; ret
.section .rodata; .dword 1b, 0x7fffffff, 0, -0x80000000
.text; 1: slli a0, a1, 0; ret
.section .rodata; .dword 1b, -0x7fffffff7fffffff, 0, -0x7fffffff7fffffff
.text; 1: slli a0, a1, 1; ret
.section .rodata; .dword 1b, -0x7fffffff7fffffff, 0, 0x100000002
.text; 1: slli a0, a1, 31; ret
.section .rodata; .dword 1b, -0x7fffffff7fffffff, 0, 0x4000000080000000
.text; 1: slli a0, a1, 32; ret
.section .rodata; .dword 1b, -0x7fffffff7fffffff, 0, -0x7fffffff00000000
.text; 1: slli a0, a1, 63; ret
.section .rodata; .dword 1b, -0x7fffffff7fffffff, 0, -0x8000000000000000
.text; 1: srli a0, a1, 0; ret
.section .rodata; .dword 1b, -0x7fffffff7fffffff, 0, -0x7fffffff7fffffff
.text; 1: srli a0, a1, 1; ret
.section .rodata; .dword 1b, -0x7fffffff7fffffff, 0, 0x4000000040000000
.text; 1: srli a0, a1, 31; ret
.section .rodata; .dword 1b, -0x7fffffff7fffffff, 0, 0x100000001
.text; 1: srli a0, a1, 32; ret
.section .rodata; .dword 1b, -0x7fffffff7fffffff, 0, 0x80000000
.text; 1: srli a0, a1, 63; ret
.section .rodata; .dword 1b, -0x7fffffff7fffffff, 0, 1
.text; 1: srai a0, a1, 0; ret
.section .rodata; .dword 1b, -0x7fffffff7fffffff, 0, -0x7fffffff7fffffff
.text; 1: srai a0, a1, 1; ret
.section .rodata; .dword 1b, -0x7fffffff7fffffff, 0, -0x3fffffffc0000000
.text; 1: srai a0, a1, 31; ret
.section .rodata; .dword 1b, -0x7fffffff7fffffff, 0, -0xffffffff
.text; 1: srai a0, a1, 32; ret
.section .rodata; .dword 1b, -0x7fffffff7fffffff, 0, -0x80000000
.text; 1: srai a0, a1, 63; ret
.section .rodata; .dword 1b, -0x7fffffff7fffffff, 0, -1
.text; 1: slliw a0, a1, 0; ret
.section .rodata; .dword 1b, -0x7fffffff7fffffff, 0, -0x7fffffff
.text; 1: slliw a0, a1, 1; ret
.section .rodata; .dword 1b, -0x7fffffff7fffffff, 0, 2
.text; 1: slliw a0, a1, 31; ret
.section .rodata; .dword 1b, -0x7fffffff7fffffff, 0, -0x80000000
.text; 1: srliw a0, a1, 0; ret
.section .rodata; .dword 1b, -0x7fffffff7fffffff, 0, -0x7fffffff
.text; 1: srliw a0, a1, 1; ret
.section .rodata; .dword 1b, -0x7fffffff7fffffff, 0, 0x40000000
.text; 1: srliw a0, a1, 31; ret
.section .rodata; .dword 1b, -0x7fffffff7fffffff, 0, 1
.text; 1: sraiw a0, a1, 0; ret
.section .rodata; .dword 1b, -0x7fffffff7fffffff, 0, -0x7fffffff
.text; 1: sraiw a0, a1, 1; ret
.section .rodata; .dword 1b, -0x7fffffff7fffffff, 0, -0x40000000
.text; 1: sraiw a0, a1, 31; ret
.section .rodata; .dword 1b, -0x7fffffff7fffffff, 0, -1

# Upper constants: auipc adds its own address.
.text; 1: lui a0, 0x80000; ret
.section .rodata; .dword 1b, 0, 0, -0x80000000
.text; 1: lui a0, 0x7ffff; ret
.section .rodata; .dword 1b, 0, 0, 0x7ffff000
.text; 1: auipc a0, 0x80000; ret
.section .rodata; .dword 1b, 0, 0, 1b - 0x80000000
.text; 1: auipc a0, 0xfffff; ret
.section .rodata; .dword 1b, 0, 0, 1b - 0x1000

# a0 is 0 after each, since x0 stays as it is.
.text; 1: li zero, 5; mv a0, zero; ret
.section .rodata; .dword 1b, 7, 7, 0
.text; 1: lui zero, 1; mv a0, zero; ret
.section .rodata; .dword 1b, 7, 7, 0
.text; 1: lw zero, 0(s2); mv a0, zero; ret
.section .rodata; .dword 1b, 7, 7, 0
.text; 1: amoswap.w zero, a1, (s2); mv a0, zero; ret
.section .rodata; .dword 1b, 7, 7, 0
.text; 1: jal zero, . + 4; mv a0, zero; ret
.section .rodata; .dword 1b, 7, 7, 0
.text; 1: fence.tso; mv a0, zero; ret
.section .rodata; .dword 1b, 7, 7, 0

# a0 is 1 where the branch is taken.

.text
beq: li a0, 1; beq a1, a2, . + 8; li a0, 0; ret
.section .rodata
    .dword beq, 0, 0, 1
    .dword beq, 1, 0, 0
    .dword beq, 0, 1, 0
    .dword beq, -1, 1, 0
    .dword beq, 1, -1, 0
    .dword beq, -1, -2, 0
    .dword beq, -0x8000000000000000, 0x7fffffffffffffff, 0
    .dword beq, 0x7fffffffffffffff, -0x8000000000000000, 0

.text
bne: li a0, 1; bne a1, a2, . + 8; li a0, 0; ret
.section .rodata
    .dword bne, 0, 0, 0
    .dword bne, 1, 0, 1
    .dword bne, 0, 1, 1
    .dword bne, -1, 1, 1
    .dword bne, 1, -1, 1
    .dword bne, -1, -2, 1
    .dword bne, -0x8000000000000000, 0x7fffffffffffffff, 1
    .dword bne, 0x7fffffffffffffff, -0x8000000000000000, 1

.text
blt: li a0, 1; blt a1, a2, . + 8; li a0, 0; ret
.section .rodata
    .dword blt, 0, 0, 0
    .dword blt, 1, 0, 0
    .dword blt, 0, 1, 1
    .dword blt, -1, 1, 1
    .dword blt, 1, -1, 0
    .dword blt, -1, -2, 0
    .dword blt, -0x8000000000000000, 0x7fffffffffffffff, 1
    .dword blt, 0x7fffffffffffffff, -0x8000000000000000, 0

.text
bge: li a0, 1; bge a1, a2, . + 8; li a0, 0; ret
.section .rodata
    .dword bge, 0, 0, 1
    .dword bge, 1, 0, 1
    .dword bge, 0, 1, 0
    .dword bge, -1, 1, 0
    .dword bge, 1, -1, 1
    .dword bge, -1, -2, 1
    .dword bge, -0x8000000000000000, 0x7fffffffffffffff, 0
    .dword bge, 0x7fffffffffffffff, -0x8000000000000000, 1

.text
bltu: li a0, 1; bltu a1, a2, . + 8; li a0, 0; ret
.section .rodata
    .dword bltu, 0, 0, 0
    .dword bltu, 1, 0, 0
    .dword bltu, 0, 1, 1
    .dword bltu, -1, 1, 0
    .dword bltu, 1, -1, 1
    .dword bltu, -1, -2, 0
    .dword bltu, -0x8000000000000000, 0x7fffffffffffffff, 0
    .dword bltu, 0x7fffffffffffffff, -0x8000000000000000, 1

.text
bgeu: li a0, 1; bgeu a1, a2, . + 8; li a0, 0; ret
.section .rodata
    .dword bgeu, 0, 0, 1
    .dword bgeu, 1, 0, 1
    .dword bgeu, 0, 1, 0
    .dword bgeu, -1, 1, 1
    .dword bgeu, 1, -1, 0
    .dword bgeu, -1, -2, 1
    .dword bgeu, -0x8000000000000000, 0x7fffffffffffffff, 1
    .dword bgeu, 0x7fffffffffffffff, -0x8000000000000000, 0

# Jumps forward and back, and the difference of their links; one to an odd address, which is taken without its bit 0.

.text
there_and_back: mv t1, ra; jal ra, . + 8; ebreak; jal t0, . + 16; ebreak
    j . + 12; ebreak; j . - 8; sub a0, t0, ra; jr t1
.section .rodata
    .dword there_and_back, 0, 0, 8

.text
to_an_odd_address: auipc t0, 0; jalr t0, 13(t0); ebreak; mv a0, t0; ret
.section .rodata
    .dword to_an_odd_address, 0, 0, to_an_odd_address + 8

end:
