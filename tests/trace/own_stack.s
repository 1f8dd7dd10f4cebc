# The deepest stack where sp is among the program's variables: what it left below its highest value there. By hand: 48
# bytes. The first half of an address that la or li loads counts for nothing, and neither does a value outside of both
# stacks.
# rv: stats a.s
# status: 0
# errors has: deepest stack                          48
# rv: stats b.s
# status: 0
# errors has: deepest stack                          96
# rv: stats c.s
# status: 0
# errors has: deepest stack                           0
# rv: stats d.s
# status: 0
# errors has: deepest stack                        4080
#--- a.s
.globl _start
_start: la sp, top
  call f
  li a0, 0
  li a7, 93
  ecall
f: addi sp, sp, -16
  sd ra, 8(sp)
  addi sp, sp, -32
  sd zero, 0(sp)
  addi sp, sp, 32
  ld ra, 8(sp)
  addi sp, sp, 16
  ret
.bss
.zero 4096
.balign 16
stack: .zero 200
.balign 16
top:
#--- b.s
.globl _start
_start: addi sp, sp, -96
  la sp, top
  addi sp, sp, -32
  li a0, 0
  li a7, 93
  ecall
.bss
.balign 16
.zero 256
top:
#--- c.s
.globl _start
_start: li sp, 64
  addi sp, sp, -64
  li a0, 0
  li a7, 93
  ecall
#--- d.s
.globl _start
_start: li sp, 0x3ffff010
  li a0, 0
  li a7, 93
  ecall
