# Each source begins with compressed code on, whatever the one before it said.
# text: 13051000 1d45 9308d005 73000000
#--- a.s
.option norvc
li a0, 1
#--- b.s
.globl _start
_start: li a0, 7
li a7, 93
ecall
