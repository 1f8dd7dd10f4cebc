# Of several distances the line shown is one that has the fault.
# rv: check a.s
# status: 1
# errors:
# out is: wanted
#--- a.s
.globl _start
_start: j _start + 2
j _start + 1
#--- wanted
L2 OddTarget
  a.s:3:
    j _start + 1
      ^^^^^^
  _start+0x1 is at 0x10001, at a distance of -1 from here, 0x10002; instructions stand at even addresses
1 fault
