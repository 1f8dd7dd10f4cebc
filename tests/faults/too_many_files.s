# A build takes 1,024 sources.
# rv: build -o a {{1025 * a.s }}
# fault: L10 TooManyFiles
# out:
#--- a.s
.option norvc
.globl _start
_start: li a0, 7
li a7, 93
ecall
