# A report and counts as objects of JSON, by hand from the source: instructions of 4 bytes, the text at 10000h.
# rv: run --report --json a.s
# status: 125
# out:
# errors is: report
# rv: stats --lines --json a.s
# status: 125
# errors is: counts
#--- a.s
.option norvc
.globl _start
_start: li s1, -1
  call f
f: sd ra, -8(sp)
  lw a0, 4(zero)
#--- report
{"access":{"bytes":4,"kind":"load"},"address":4,"at":{"address":65548,"alias":"lw a0,4(zero)","distance":4,"file":"a.s","instruction":"lw a0,4(zero)","line":6,"symbol":"f"},"end":"LoadOutside","latest":[{"address":65536,"alias":"li s1,-1","distance":0,"file":"a.s","instruction":"addi s1,zero,-1","line":3,"symbol":"_start"},{"address":65540,"alias":"jal 0x10008","distance":4,"file":"a.s","instruction":"jal ra,0x10008","line":4,"symbol":"_start"},{"address":65544,"alias":"sd ra,-8(sp)","distance":0,"file":"a.s","instruction":"sd ra,-8(sp)","line":5,"symbol":"f"},{"address":65548,"alias":"lw a0,4(zero)","distance":4,"file":"a.s","instruction":"lw a0,4(zero)","line":6,"symbol":"f"}],"refused":{"calls":[],"others":0},"registers":{"a0":0,"a1":0,"a2":0,"a3":0,"a4":0,"a5":0,"a6":0,"a7":0,"gp":0,"ra":65544,"s0":0,"s1":"18446744073709551615","s10":0,"s11":0,"s2":0,"s3":0,"s4":0,"s5":0,"s6":0,"s7":0,"s8":0,"s9":0,"sp":1073741824,"t0":0,"t1":0,"t2":0,"t3":0,"t4":0,"t5":0,"t6":0,"tp":0,"zero":0},"segments":[{"end":65552,"rights":"--x","start":65536},{"end":1073741824,"rights":"rw-","start":1072693248}],"status":null}
#--- counts
{"branches_not_taken":0,"branches_taken":0,"bytes_read":0,"bytes_written":8,"calls":[{"address":65544,"count":1,"distance":0,"symbol":"f"}],"compressed":0,"deepest_stack":0,"end":"LoadOutside","instructions":3,"kinds":{"arithmetic":1,"atomic":0,"branch":0,"jump":1,"load":0,"other":0,"store":1},"lines":[{"count":1,"file":"a.s","line":3},{"count":1,"file":"a.s","line":4},{"count":1,"file":"a.s","line":5},{"count":0,"file":"a.s","line":6}],"loads":0,"mnemonics":{"addi":1,"jal":1,"sd":1},"status":null,"stores":1}
