# Adds the numbers from 1 to 4 and exits with the sum, 10.
# exit: 10
.option norvc
.globl _start

_start:
    li a0, 1        # the sum so far
    addi a0, a0, 2
    addi a0, a0, 3
    addi a0, a0, 4
exit:
    li a7, 93       /* the call that exits with a0 */
    ecall
