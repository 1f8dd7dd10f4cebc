# RAM has 128 MiB from 80000000h on: what no segment has can be read and written, up to the last byte.
# rv: run --board virt ram.s
# exit: 9
.globl _start
_start:
    li sp, 0x88000000
    li a0, 9
    sd a0, -8(sp)
    li a1, 0x84000000
    ld a2, 0(a1)
    bnez a2, 1f
    ld a0, -8(sp)
1:  slli a0, a0, 16
    li a1, 0x3333
    or a0, a0, a1
    li a1, 0x100000
    sw a0, 0(a1)
