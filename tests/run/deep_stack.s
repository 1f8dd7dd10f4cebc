# A recursion over 500 KiB of the stack, 4,000 frames of 128 bytes: each holds its number and its return address. On the
# way back the numbers sum up to 4000 * 4001 / 2, and what was written first, at the top, stands there at the end.
# exit: 77
.option norvc
.globl _start
_start:
  li t0, 77
  sd t0, -8(sp)
  addi sp, sp, -16
  li a0, 4000
  call sum
  addi sp, sp, 16
  li t0, 8002000
  bne a0, t0, wrong
  ld a0, -8(sp)
  j exit
wrong:
  li a0, 1
exit:
  li a7, 93
  ecall
sum:
  addi sp, sp, -128
  sd ra, 120(sp)
  sd a0, (sp)
  beqz a0, back
  addi a0, a0, -1
  call sum
  ld t0, (sp)
  add a0, a0, t0
back:
  ld ra, 120(sp)
  addi sp, sp, 128
  ret
