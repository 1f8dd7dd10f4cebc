# A console that differs is shown with bytes that are no letters as escapes, and a key of other tests is no key here.
# rv: test bytes.s others.s
# status: 1
# out is: told
#--- bytes.s
# console: ab
.globl _start
_start: li a0, 1
  la a1, bytes
  li a2, 2
  li a7, 64
  ecall
  li a0, 0
  li a7, 93
  ecall
.rodata
bytes: .byte 1, 200
#--- others.s
# out has: ab
# exit: 0
.globl _start
_start: li a0, 0
  li a7, 93
  ecall
#--- told
bytes.s: the console differs
  line 1 of the console
    wanted ab
    came   \x01\xc8
others.s:1: out has is no key of a case; the keys are exit, end, console, fault, input, limit and instructions
0 passed, 2 failed
