# Calls 63 and 64 with bytes over 3fff0000h, below which a run makes the stack when it is written there: four on each
# side. Before the call 63 these eight are zeros, and those around them after it.
# input: abcdWXYZ
# console: abcdWXYZ
# exit: 0
.option norvc
.globl _start
_start:
  lui s0, 0x3fff0
  addi s0, s0, -4
  ld t0, (s0)
  bnez t0, wrong
  li a0, 0
  mv a1, s0
  li a2, 8
  li a7, 63
  ecall
  li t0, 8
  bne a0, t0, wrong
  ld t1, (s0)
  li t2, 0x5a59585764636261
  bne t1, t2, wrong
  ld t1, -8(s0)
  bnez t1, wrong
  ld t1, 8(s0)
  bnez t1, wrong
  li a0, 1
  mv a1, s0
  li a2, 8
  li a7, 64
  ecall
  li a0, 0
  j exit
wrong:
  li a0, 1
exit:
  li a7, 93
  ecall
