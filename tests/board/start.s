# Every register is 0 at the start, as QEMU has sp and a0, and the run begins at 80000000h (QEMU, hw/riscv/virt.c).
# rv: run --board virt start.s
# console:
# exit: 0
.globl _start
_start:
    auipc t0, 0
    li t1, 0x80000000
    bne t0, t1, 1f
    or a0, a0, sp
    bnez a0, 1f
    li t0, 0x5555
    j 2f
1:  li t0, 0x13333
2:  li t1, 0x100000
    sw t0, 0(t1)
