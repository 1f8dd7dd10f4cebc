# The line of a fault of the link is one that has it, also where another statement of the source adds as much to a name, and
# where a numeric label is meant, and where sections are collected.
# rv: check odd.s
# status: 1
# errors:
# out is: odd
# rv: check far.s
# status: 1
# errors:
# out is: far
# rv: check short.s
# status: 1
# errors:
# out is: short
# rv: check low.s
# status: 1
# errors:
# out is: low
# rv: check part.s odd.s
# status: 1
# errors:
# out is: odd_behind
# rv: check --gc-sections odd.s
# status: 1
# errors:
# out is: odd
#--- odd.s
.globl _start
_start: j 1f+1
1: ret
.data
.word _start+0x100000000
#--- far.s
.globl _start
_start: nop
j 1f+0x100000
j _start+0x1000
1: j x+1
x: ret
#--- short.s
.globl _start
_start: beqz a0, 1f
beqz a0, 1f+1
1: ret
#--- low.s
.globl _start
_start: auipc a0, %pcrel_hi(x)
addi a0, a0, %pcrel_lo(_start)
addi a0, a0, %pcrel_lo(x)
x: ret
#--- part.s
f: j g
g: ret
#--- odd
L2 OddTarget
  odd.s:2:
    _start: j 1f+1
              ^^
  1f+0x1 is at 0x10005, at a distance of 5 from here, 0x10000; instructions stand at even addresses
1 fault
#--- odd_behind
L2 OddTarget
  odd.s:2:
    _start: j 1f+1
              ^^
  1f+0x1 is at 0x10009, at a distance of 5 from here, 0x10004; instructions stand at even addresses
1 fault
#--- far
L1 Overflow
  far.s:3:
    j 1f+0x100000
      ^^
  1f+0x100000 is at 0x11000a, at a distance of 1048584 from here, 0x10002; a jump reaches -1048576 to 1048574
1 fault
#--- short
L2 OddTarget
  short.s:3:
    beqz a0, 1f+1
             ^^
  1f+0x1 is at 0x1000b, at a distance of 5 from here, 0x10006; instructions stand at even addresses
1 fault
#--- low
L3 DanglingPcrel
  low.s:4:
    addi a0, a0, %pcrel_lo(x)
                  ^^^^^^^^
  %pcrel_lo names a label at which there is no %pcrel_hi
1 fault
