# The report of a run that came to where --until ends it has no cure, since that was asked for; one that fell off the end of the
# text says from where.
# rv: run --report --until f a.s
# status: 0
# out:
# errors is: wanted
# rv: run --report --limit 1 a.s
# status: 125
# errors has: cure
# rv: run --report b.s
# status: 125
# errors has: from
# errors has:   0000000000010002 _start+0x2           nop  # b.s:3: nop
#--- a.s
.globl _start
_start: nop
 call f
f: ret
#--- b.s
.globl _start
_start: nop
nop
#--- wanted
reached
  what --until names, which comes next
at
  0000000000010006 f                    ret
  a.s:4: f: ret
registers
  zero 0000000000000000
  ra   0000000000010006 f
  sp   0000000040000000
  gp   0000000000000000
  tp   0000000000000000
  t0   0000000000000000
  t1   0000000000000000
  t2   0000000000000000
  s0   0000000000000000
  s1   0000000000000000
  a0   0000000000000000
  a1   0000000000000000
  a2   0000000000000000
  a3   0000000000000000
  a4   0000000000000000
  a5   0000000000000000
  a6   0000000000000000
  a7   0000000000000000
  s2   0000000000000000
  s3   0000000000000000
  s4   0000000000000000
  s5   0000000000000000
  s6   0000000000000000
  s7   0000000000000000
  s8   0000000000000000
  s9   0000000000000000
  s10  0000000000000000
  s11  0000000000000000
  t3   0000000000000000
  t4   0000000000000000
  t5   0000000000000000
  t6   0000000000000000
segments
  0000000000010000 0000000000010008 --x .text
  000000003ff00000 0000000040000000 rw- the stack
latest instructions
  0000000000010000 _start               nop  # a.s:2: _start: nop
  0000000000010002 _start+0x2           jal 0x10006 <f>  # a.s:3: call f
