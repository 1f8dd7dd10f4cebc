# The listing of a program, and an executable that is none.
# rv: build -o e --map m a.s
# rv: objdump --map m e
# out: @ 1 3 4\n10000: addi a0,zero,7\n@ 1 4 5\n10004: addi a7,zero,93\n@ 1 5 6\n10008: ecall\n
# errors:
# rv: objdump --map m a
# fault: a: F1 Truncated
# out:
#--- a hex
#--- a.s
.option norvc
.globl _start
_start: li a0, 7
li a7, 93
ecall
