# Watchpoints of the three kinds, forwards and back.
#--- prog.s
.option norvc
.globl _start
_start: lui s0, 0x11
li t0, 7
sw t0, 0(s0)
lw t1, 0(s0)
addi t1, t1, 1
sw t1, 0(s0)
sb t1, 4(s0)
li a0, 0
li a7, 93
ecall
.data
.word 5
.word 0
#--- session
(gdb) watch *(int *) 0x11000
Hardware watchpoint 1: *(int *) 0x11000
(gdb) continue

Hardware watchpoint 1: *(int *) 0x11000

Old value = 5
New value = 7
0x000000000001000c in ?? ()
(gdb) continue

Hardware watchpoint 1: *(int *) 0x11000

Old value = 7
New value = 8
0x0000000000010018 in ?? ()
(gdb) reverse-continue

Hardware watchpoint 1: *(int *) 0x11000

Old value = 8
New value = 7
0x0000000000010014 in ?? ()
(gdb) reverse-continue

Hardware watchpoint 1: *(int *) 0x11000

Old value = 7
New value = 5
0x0000000000010008 in ?? ()
(gdb) delete
(gdb) rwatch *(int *) 0x11000
Hardware read watchpoint 2: *(int *) 0x11000
(gdb) continue

Hardware read watchpoint 2: *(int *) 0x11000

Value = 7
0x0000000000010010 in ?? ()
(gdb) delete
(gdb) awatch *(char *) 0x11004
Hardware access (read/write) watchpoint 3: *(char *) 0x11004
(gdb) continue

Hardware access (read/write) watchpoint 3: *(char *) 0x11004

Old value = 0 '\000'
New value = 8 '\b'
0x000000000001001c in ?? ()
