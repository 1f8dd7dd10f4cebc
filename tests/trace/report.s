# How a run ended: by an access, and by an exit.
# rv: run --report a.s
# status: 125
# out:
# errors is: wanted
# rv: run --report exit.s
# status: 7
# errors has: exit
# errors has:   with status 7
# errors has:   exit.s:4: ecall
# errors has:   a0   0000000000000007 7
# errors has:   s1   ffffffffffffff85 -123
# rv: build -o exe --map map a.s
# rv: run --report --map map exe
# status: 125
# errors has:   0000000000010010 _start+0x10          lw a0,4(t0)
# errors has:   1:6
# errors has:   a1   0000000000011004 buf+0x4
#--- a.s
.option norvc
.globl _start, buf
_start: la a1, buf
  addi a1, a1, 4
  li t0, 8
  lw a0, 4(t0)
.bss
buf: .zero 16
#--- exit.s
.globl _start
_start: li a0, 7; li s1, -123
  li a7, 93
  ecall
#--- wanted
rv: LoadOutside c
at
  0000000000010010 _start+0x10          lw a0,4(t0)
  a.s:6: lw a0, 4(t0)
access
  load of 4 bytes at 000000000000000c, in no segment
cure
  load the address first, as by la, and stay inside what stands there; load
  what is on the stack before sp goes back
registers
  zero 0000000000000000
  ra   0000000000000000
  sp   0000000040000000
  gp   0000000000000000
  tp   0000000000000000
  t0   0000000000000008 8
  t1   0000000000000000
  t2   0000000000000000
  s0   0000000000000000
  s1   0000000000000000
  a0   0000000000000000
  a1   0000000000011004 buf+0x4
  a2   0000000000000000
  a3   0000000000000000
  a4   0000000000000000
  a5   0000000000000000
  a6   0000000000000000
  a7   0000000000000000
  s2   0000000000000000
  s3   0000000000000000
  s4   0000000000000000
  s5   0000000000000000
  s6   0000000000000000
  s7   0000000000000000
  s8   0000000000000000
  s9   0000000000000000
  s10  0000000000000000
  s11  0000000000000000
  t3   0000000000000000
  t4   0000000000000000
  t5   0000000000000000
  t6   0000000000000000
segments
  0000000000010000 0000000000010014 --x .text
  0000000000011000 0000000000011010 rw- .bss
  000000003ff00000 0000000040000000 rw- the stack
latest instructions
  0000000000010000 _start               auipc a1,0x1  # a.s:3: _start: la a1, buf
  0000000000010004 _start+0x4           mv a1,a1
  0000000000010008 _start+0x8           add a1,a1,4  # a.s:4: addi a1, a1, 4
  000000000001000c _start+0xc           li t0,8  # a.s:5: li t0, 8
  0000000000010010 _start+0x10          lw a0,4(t0)  # a.s:6: lw a0, 4(t0)
