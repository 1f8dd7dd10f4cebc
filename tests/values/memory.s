# Loads and stores of each width, aligned and not. A row is a routine, a1, a2, and a0 and a3 after it.
# The status is the number of the first row that differs, from 1, or 0.
# The values are those of qemu-riscv64 7.2: of this very file GNU as and ld 2.40 (-Ttext=0x10000) make a program that
# exits with 0 there.
# exit: 0
.option norvc
.globl _start
_start:
    la s0, rows
    la s1, end
    li s3, 0                    # the number of the row
    la s2, place
1:  addi s3, s3, 1
    ld t0, 0(s0)
    ld a1, 8(s0)
    ld a2, 16(s0)
    li a3, 0
    jalr t0
    ld t0, 24(s0)
    bne a0, t0, 2f
    ld t0, 32(s0)
    bne a3, t0, 2f
    addi s0, s0, 40
    bne s0, s1, 1b
    li s3, 0
2:  mv a0, s3
    li a7, 93
    ecall

.data
    .balign 8
place:
    .dword 0x8001fffe00ff807f, 0x800000007fffffff, 0x785634127fff8001

.section .rodata
    .balign 8
rows:

.text
lb: lb a0, 0(a1); ret
.section .rodata
    .dword lb, place, 0, 127, 0
    .dword lb, place + 1, 0, -128, 0
    .dword lb, place + 2, 0, -1, 0
    .dword lb, place + 3, 0, 0, 0
    .dword lb, place + 4, 0, -2, 0
    .dword lb, place + 6, 0, 1, 0
    .dword lb, place + 7, 0, -128, 0
    .dword lb, place + 8, 0, -1, 0
    .dword lb, place + 11, 0, 127, 0
    .dword lb, place + 14, 0, 0, 0

.text
lh: lh a0, 0(a1); ret
.section .rodata
    .dword lh, place, 0, -0x7f81, 0
    .dword lh, place + 1, 0, -128, 0
    .dword lh, place + 2, 0, 255, 0
    .dword lh, place + 3, 0, -512, 0
    .dword lh, place + 4, 0, -2, 0
    .dword lh, place + 6, 0, -0x7fff, 0
    .dword lh, place + 7, 0, -128, 0
    .dword lh, place + 8, 0, -1, 0
    .dword lh, place + 11, 0, 127, 0
    .dword lh, place + 14, 0, -0x8000, 0

.text
lw: lw a0, 0(a1); ret
.section .rodata
    .dword lw, place, 0, 0xff807f, 0
    .dword lw, place + 1, 0, -0x1ff0080, 0
    .dword lw, place + 2, 0, -0x1ff01, 0
    .dword lw, place + 3, 0, 0x1fffe00, 0
    .dword lw, place + 4, 0, -0x7ffe0002, 0
    .dword lw, place + 6, 0, -0x7fff, 0
    .dword lw, place + 7, 0, -128, 0
    .dword lw, place + 8, 0, 0x7fffffff, 0
    .dword lw, place + 11, 0, 127, 0
    .dword lw, place + 14, 0, -0x7ffe8000, 0

.text
ld: ld a0, 0(a1); ret
.section .rodata
    .dword ld, place, 0, -0x7ffe0001ff007f81, 0
    .dword ld, place + 1, 0, -0x7ffe0001ff0080, 0
    .dword ld, place + 2, 0, -0x7ffe0001ff01, 0
    .dword ld, place + 3, 0, -0x7ffe000200, 0
    .dword ld, place + 4, 0, 0x7fffffff8001fffe, 0
    .dword ld, place + 6, 0, 0x7fffffff8001, 0
    .dword ld, place + 7, 0, 0x7fffffff80, 0
    .dword ld, place + 8, 0, -0x7fffffff80000001, 0
    .dword ld, place + 11, 0, -0x7ffe7fffffff81, 0
    .dword ld, place + 14, 0, 0x34127fff80018000, 0

.text
lbu: lbu a0, 0(a1); ret
.section .rodata
    .dword lbu, place, 0, 127, 0
    .dword lbu, place + 1, 0, 128, 0
    .dword lbu, place + 2, 0, 255, 0
    .dword lbu, place + 3, 0, 0, 0
    .dword lbu, place + 4, 0, 254, 0
    .dword lbu, place + 6, 0, 1, 0
    .dword lbu, place + 7, 0, 128, 0
    .dword lbu, place + 8, 0, 255, 0
    .dword lbu, place + 11, 0, 127, 0
    .dword lbu, place + 14, 0, 0, 0

.text
lhu: lhu a0, 0(a1); ret
.section .rodata
    .dword lhu, place, 0, 0x807f, 0
    .dword lhu, place + 1, 0, 0xff80, 0
    .dword lhu, place + 2, 0, 255, 0
    .dword lhu, place + 3, 0, 0xfe00, 0
    .dword lhu, place + 4, 0, 0xfffe, 0
    .dword lhu, place + 6, 0, 0x8001, 0
    .dword lhu, place + 7, 0, 0xff80, 0
    .dword lhu, place + 8, 0, 0xffff, 0
    .dword lhu, place + 11, 0, 127, 0
    .dword lhu, place + 14, 0, 0x8000, 0

.text
lwu: lwu a0, 0(a1); ret
.section .rodata
    .dword lwu, place, 0, 0xff807f, 0
    .dword lwu, place + 1, 0, 0xfe00ff80, 0
    .dword lwu, place + 2, 0, 0xfffe00ff, 0
    .dword lwu, place + 3, 0, 0x1fffe00, 0
    .dword lwu, place + 4, 0, 0x8001fffe, 0
    .dword lwu, place + 6, 0, 0xffff8001, 0
    .dword lwu, place + 7, 0, 0xffffff80, 0
    .dword lwu, place + 8, 0, 0x7fffffff, 0
    .dword lwu, place + 11, 0, 127, 0
    .dword lwu, place + 14, 0, 0x80018000, 0

# Stores one after the other: a0 and a3 are the 16 bytes at the place after each. put_back puts there what was there at
# first, a1 and a2.

.text
put_back: sd a1, 0(s2); sd a2, 8(s2); ld a0, 0(s2); ld a3, 8(s2); ret

.text
sb: sb a2, 0(a1); ld a0, 0(s2); ld a3, 8(s2); ret
.section .rodata
    .dword sb, place, -0x7e7d7c7b7a797878, -0x7ffe0001ff007f78, -0x7fffffff80000001
    .dword sb, place + 3, 0x1112131415161718, -0x7ffe0001e7007f78, -0x7fffffff80000001
    .dword sb, place + 7, 0, 0x1fffe18ff8088, -0x7fffffff80000001
    .dword sb, place + 8, -1, 0x1fffe18ff8088, -0x7fffffff80000001

.text
sh: sh a2, 0(a1); ld a0, 0(s2); ld a3, 8(s2); ret
.section .rodata
    .dword put_back, -0x7ffe0001ff007f81, -0x7fffffff80000001, -0x7ffe0001ff007f81, -0x7fffffff80000001
    .dword sh, place, -0x7e7d7c7b7a797878, -0x7ffe0001ff007878, -0x7fffffff80000001
    .dword sh, place + 3, 0x1112131415161718, -0x7ffe00e8e7007878, -0x7fffffff80000001
    .dword sh, place + 7, 0, 0x1ff1718ff8788, -0x7fffffff80000100
    .dword sh, place + 8, -1, 0x1ff1718ff8788, -0x7fffffff80000001

.text
sw: sw a2, 0(a1); ld a0, 0(s2); ld a3, 8(s2); ret
.section .rodata
    .dword put_back, -0x7ffe0001ff007f81, -0x7fffffff80000001, -0x7ffe0001ff007f81, -0x7fffffff80000001
    .dword sw, place, -0x7e7d7c7b7a797878, -0x7ffe00017a797878, -0x7fffffff80000001
    .dword sw, place + 3, 0x1112131415161718, -0x7feae9e8e7797878, -0x7fffffff80000001
    .dword sw, place + 7, 0, 0x15161718868788, -0x7fffffff81000000
    .dword sw, place + 8, -1, 0x15161718868788, -0x7fffffff00000001

.text
sd: sd a2, 0(a1); ld a0, 0(s2); ld a3, 8(s2); ret
.section .rodata
    .dword put_back, -0x7ffe0001ff007f81, -0x7fffffff80000001, -0x7ffe0001ff007f81, -0x7fffffff80000001
    .dword sd, place, -0x7e7d7c7b7a797878, -0x7e7d7c7b7a797878, -0x7fffffff80000001
    .dword sd, place + 3, 0x1112131415161718, 0x1415161718868788, -0x7fffffff80eeeded
    .dword sd, place + 7, 0, 0x15161718868788, -0x8000000000000000
    .dword sd, place + 8, -1, 0x15161718868788, -1

end:
