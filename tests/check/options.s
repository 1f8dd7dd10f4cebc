# The options are those of a build.
# rv: check --text-start 4097 a.s
# status: 1
# errors:
# out is: wanted
#--- a.s
.globl _start
_start: li a7, 93
ecall
#--- wanted
L9 BadTextStart
  a text starts at a multiple of 4096 below 0x3ff00000; --origin also takes 0x40000000 and above
1 fault
