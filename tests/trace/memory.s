# What a report shows of memory: the words around an access as far as they may be read, a call that was refused, and the
# stack around sp.
# rv: run --report a.s
# status: 125
# errors has: memory around the access
# errors has:   0000000000011000 00000007 7 v
# errors has:   0000000000011004 ffffffff -1 v+0x4
# errors has:   0000000000011008 12345678 v+0x8
# errors has: refused calls
# errors has:   call 10, 2 times, first at 0000000000010004 _start+0x4, answered -38: it is not one of 63, 64, 93; RARS's exit is 93 here
# errors has: stack
# errors has:   000000003fffffe0 0000000000000000
# errors has: > 000000003ffffff0 fffffffffffffffe -2
# errors has:   000000003ffffff8 0000000000010000 _start
# rv: run --report b.s
# status: 0
# errors has:   call 64 with a0 5 at 0000000000010008 _start+0x8, answered -9: it writes only where a0 is 1 or 2
#--- a.s
.option norvc
.globl _start
_start: li a7, 10
  ecall
  ecall
  addi sp, sp, -16
  li t0, -2
  sd t0, (sp)
  la t0, _start
  sd t0, 8(sp)
  la t1, v
  lw a0, 12(t1)
.data
v: .word 7, -1, 0x12345678
#--- b.s
.option norvc
.globl _start
_start: li a7, 64
  li a0, 5
  ecall
  li a0, 0
  li a7, 93
  ecall
