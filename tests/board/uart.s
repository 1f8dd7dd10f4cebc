# A byte that is stored to the data is written; of a wider store the low byte. The line status says that the transmitter is
# empty (60h), and with bit 7 of the line control the data are the divisor's, which nothing is written for (QEMU's answers;
# PC16550D, "Line Status Register" and "Line Control Register").
# rv: run --board virt uart.s
# console: ab`g
# exit: 0
.globl _start
_start:
    li s0, 0x10000000
    li a0, 'a'
    sb a0, 0(s0)
    li a0, 0x12345662       # b
    sw a0, 0(s0)
    lbu a0, 5(s0)
    andi a0, a0, 0x60       # `
    sb a0, 0(s0)
    li a1, 0x80
    sb a1, 3(s0)
    li a0, 'x'
    sb a0, 0(s0)
    sb zero, 3(s0)
    li a0, 'g'
    sb a0, 0(s0)
    li a0, 0x5555
    li a1, 0x100000
    sw a0, 0(a1)
