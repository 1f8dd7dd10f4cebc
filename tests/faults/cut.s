# An executable without its last byte.
# rv: build -o exe a.s
# size: 4100
# cut: exe 4099
# rv: run exe
# fault: exe: F1 Truncated
#--- a.s
.option norvc
.globl _start
_start: ecall
