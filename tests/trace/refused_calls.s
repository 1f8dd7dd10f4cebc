# Each different refused call is named once, with how many are like it and where the first stands: those of a number that
# no call has by that, 63 and 64 by their file too; of the first eight. Addresses by hand: instructions of 4 bytes from 10000h.
# rv: run --report a.s
# status: 0
# errors has: refused calls
# errors has:   call 10, 2 times, first at 0000000000010008 again+0x4, answered -38: it is not one of 63, 64, 93; RARS's exit is 93 here
# errors has:   call 64 with a0 5, 2 times, first at 0000000000010014 again+0x10, answered -9: it writes only where a0 is 1 or 2
# errors has:   call 63 with a0 3 at 0000000000010028 again+0x24, answered -9: it reads only where a0 is 0
# errors has:   call 64 with a0 3 at 0000000000010034 again+0x30, answered -9: it writes only where a0 is 1 or 2
# errors has:   call 100 at 0000000000010040 more+0x4, answered -38: it is not one of 63, 64, 93
# errors has:   call 103 at 0000000000010040 more+0x4, answered -38: it is not one of 63, 64, 93
# errors has:   and 3 others
# rv: run --limit 5 --report --json b.s
# status: 125
# out:
# errors is: report
#--- a.s
.option norvc
.globl _start
_start: li s0, 2
again: li a7, 10
  ecall
  li a0, 5
  li a7, 64
  ecall
  addi s0, s0, -1
  bnez s0, again
  li a0, 3
  li a7, 63
  ecall
  li a0, 3
  li a7, 64
  ecall
  li s0, 100
more: mv a7, s0
  ecall
  addi s0, s0, 1
  li t0, 107
  blt s0, t0, more
  li a0, 0
  li a7, 93
  ecall
#--- b.s
.option norvc
.globl _start
_start: li a7, 10
  ecall
  li a0, 3
  li a7, 64
  ecall
  j _start
#--- report
{"access":null,"address":null,"at":{"address":65556,"alias":"j 0x10000","distance":20,"file":"b.s","instruction":"jal zero,0x10000","line":8,"symbol":"_start"},"end":"Limit","latest":[{"address":65536,"alias":"li a7,10","distance":0,"file":"b.s","instruction":"addi a7,zero,10","line":3,"symbol":"_start"},{"address":65540,"alias":"ecall","distance":4,"file":"b.s","instruction":"ecall","line":4,"symbol":"_start"},{"address":65544,"alias":"li a0,3","distance":8,"file":"b.s","instruction":"addi a0,zero,3","line":5,"symbol":"_start"},{"address":65548,"alias":"li a7,64","distance":12,"file":"b.s","instruction":"addi a7,zero,64","line":6,"symbol":"_start"},{"address":65552,"alias":"ecall","distance":16,"file":"b.s","instruction":"ecall","line":7,"symbol":"_start"}],"refused":{"calls":[{"a0":null,"at":{"address":65540,"alias":"ecall","distance":4,"file":"b.s","instruction":"ecall","line":4,"symbol":"_start"},"call":10,"count":1},{"a0":3,"at":{"address":65552,"alias":"ecall","distance":16,"file":"b.s","instruction":"ecall","line":7,"symbol":"_start"},"call":64,"count":1}],"others":0},"registers":{"a0":"18446744073709551607","a1":0,"a2":0,"a3":0,"a4":0,"a5":0,"a6":0,"a7":64,"gp":0,"ra":0,"s0":0,"s1":0,"s10":0,"s11":0,"s2":0,"s3":0,"s4":0,"s5":0,"s6":0,"s7":0,"s8":0,"s9":0,"sp":1073741824,"t0":0,"t1":0,"t2":0,"t3":0,"t4":0,"t5":0,"t6":0,"tp":0,"zero":0},"segments":[{"end":65560,"rights":"--x","start":65536},{"end":1073741824,"rights":"rw-","start":1072693248}],"status":null}
