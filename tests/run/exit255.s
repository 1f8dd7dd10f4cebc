# A guest that exits with a number below 0, modulo 256; and its run with too few instructions.
# rv: build -o exe exit255.s
# rv: run exe
# console:
# exit: 255
# rv: run --limit 3 exe
# console:
# end: Limit
#--- exit255.s
.option norvc
.globl _start
_start: li a0, 7
addi a0, a0, -8
li a7, 93
ecall
