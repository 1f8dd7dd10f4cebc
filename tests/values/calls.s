# Calls of the environment, one after the other, by docs/manual/platform.md. A row is a0, a1, a2 and a7, and a0 after
# the call. The status is the number of the first row that differs, from 1, or 0.
# input: abcdefgh
# console: helloworld !?\nhello world.....abcloabclo wodefgh...abc
# exit: 0
.option norvc
.globl _start
_start:
    la s0, rows
    la s1, end
    li s3, 0                    # the number of the row
1:  addi s3, s3, 1
    ld a0, 0(s0)
    ld a1, 8(s0)
    ld a2, 16(s0)
    ld a7, 24(s0)
    ecall
    ld t0, 32(s0)
    bne a0, t0, 2f
    addi s0, s0, 40
    bne s0, s1, 1b
    li s3, 0
2:  mv a0, s3
    li a7, 93
    ecall

# The variables end behind the place.
.data
place:
    .ascii "hello world....."

.set read, 63
.set write, 64

.section .rodata
    .balign 8
rows:
    .dword 1, place, 5, write, 5
    .dword 2, place + 6, 5, write, 5
    .dword 1, constants, 4, write, 4

    # No bytes are always granted.
    .dword 1, 0, 0, write, 0
    .dword 1, _start, 0, write, 0
    .dword 0, 0, 0, read, 0

    # The file is looked at first.
    .dword 0, place, 5, write, -9
    .dword 3, place, 5, write, -9
    .dword 3, 0, 5, write, -9
    .dword 0x100000001, place, 5, write, -9
    .dword 1, place, 3, read, -9
    .dword 1, 0, 3, read, -9

    # Bytes that may not be read or written, or not all of them.
    .dword 1, 0, 5, write, -14
    .dword 1, place + 12, 5, write, -14
    .dword 1, _start, 4, write, -14
    .dword 1, place, -1, write, -14
    .dword 0, 0, 3, read, -14
    .dword 0, place, 17, read, -14
    .dword 0, constants, 3, read, -14
    .dword 0, _start, 3, read, -14

    # Nothing was moved; then what the input has, to its end.
    .dword 1, place, 16, write, 16
    .dword 0, place, 3, read, 3
    .dword 1, place, 5, write, 5
    .dword 0, place + 8, 8, read, 5
    .dword 1, place, 16, write, 16
    .dword 0, place, 16, read, 0
    .dword 0, place, 16, read, 0
    .dword 1, place, 3, write, 3

    # Other calls.
    .dword 0, 0, 0, 0, -38
    .dword 1, place, 5, 62, -38
    .dword 7, 0, 0, 0x10000005d, -38
    .dword 7, 0, 0, -1, -38
end:
constants:
    .ascii " !?\n"
