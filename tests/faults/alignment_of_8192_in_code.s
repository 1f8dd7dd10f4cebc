# 4096 is the greatest alignment.
# fault: a.s:5: E17 Limit
#--- a.s
.option norvc
.globl _start
_start: li a7, 93
ecall
.balign 8192
