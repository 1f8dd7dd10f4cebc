# Accesses over the border of two regions that lie one behind the other: constants, variables and, where the text starts
# three pages below it, the stack. The platform has each byte with its own rights, and numbers are little-endian.
# rv: build --text-start 0x3fefd000 -o exe --map map a.s
# map: rodata 3fefe000 3feff000
# map: data 3feff000 3ff00000
# rv: run exe
# console: klmnABCD
# exit: 0
# rv: run exe
# input: wxyz
# console: klmnABCD
# exit: 0
#--- a.s
.option norvc
.globl _start
_start:
  la s0, constants + 4092
  li a0, 1
  mv a1, s0
  li a2, 8
  li a7, 64
  ecall
  ld a3, (s0)
  li a4, 0x444342416e6d6c6b
  bne a3, a4, wrong
  la s1, variables + 4092
  li a3, 0x0807060504030201
  sd a3, (s1)
  lwu a4, (s1)
  li a5, 0x04030201
  bne a4, a5, wrong
  lwu a4, 4(s1)
  li a5, 0x08070605
  bne a4, a5, wrong
  ld a4, (s1)
  bne a4, a3, wrong
  sh a3, 3(s1)
  lbu a4, 4(s1)
  li a5, 2
  bne a4, a5, wrong
  lhu a4, 3(s1)
  li a5, 0x0201
  bne a4, a5, wrong
  li a0, 0
  addi a1, s1, 2
  li a2, 4
  li a7, 63
  ecall
  beqz a0, end
  lwu a4, 2(s1)
  li a5, 0x7a797877
  bne a4, a5, wrong
end:
  li a0, 0
  j exit
wrong:
  li a0, 1
exit:
  li a7, 93
  ecall
.section .rodata
constants: .zero 4092
.ascii "klmn"
.data
variables: .ascii "ABCD"
.zero 4092
