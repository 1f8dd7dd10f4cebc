# A watchpoint at what atomic instructions access: amoadd reads and writes, lr reads, sc writes.
#--- prog.s
.option norvc
.globl _start
_start: lui s0, 0x11
li t0, 7
amoadd.w t1, t0, (s0)
lr.w t1, (s0)
sc.w t2, t0, (s0)
li a0, 0
li a7, 93
ecall
.data
.word 5
#--- session
(gdb) awatch *(int *) 0x11000
Hardware access (read/write) watchpoint 1: *(int *) 0x11000
(gdb) continue

Hardware access (read/write) watchpoint 1: *(int *) 0x11000

Old value = 5
New value = 12
0x000000000001000c in ?? ()
(gdb) continue

Hardware access (read/write) watchpoint 1: *(int *) 0x11000

Value = 12
0x0000000000010010 in ?? ()
(gdb) continue

Hardware access (read/write) watchpoint 1: *(int *) 0x11000

Old value = 12
New value = 7
0x0000000000010014 in ?? ()
(gdb) monitor stats
5 instructions from the start, limit 1000000000000
