# Watchpoints inside the bytes of an access, and on single steps.
# rv: --input words prog.s
#--- prog.s
.option norvc
.globl _start
_start: lui s0, 0x11
li t0, -1
sd t0, 0(s0)
nop
li a0, 0
addi a1, s0, 16
li a2, 8
li a7, 63
ecall
nop
li a0, 0
li a7, 93
ecall
.data
.zero 32
#--- words
abcdefgh
#--- session
(gdb) watch *(int *) 0x11004
Hardware watchpoint 1: *(int *) 0x11004
(gdb) continue

Hardware watchpoint 1: *(int *) 0x11004

Old value = 0
New value = -1
0x000000000001000c in ?? ()
(gdb) reverse-stepi

Hardware watchpoint 1: *(int *) 0x11004

Old value = -1
New value = 0
0x0000000000010008 in ?? ()
(gdb) stepi

Hardware watchpoint 1: *(int *) 0x11004

Old value = 0
New value = -1
0x000000000001000c in ?? ()
(gdb) stepi
0x0000000000010010 in ?? ()
(gdb) delete
(gdb) watch *(char *) 0x11014
Hardware watchpoint 2: *(char *) 0x11014
(gdb) continue

Hardware watchpoint 2: *(char *) 0x11014

Old value = 0 '\000'
New value = 101 'e'
0x0000000000010024 in ?? ()
(gdb) reverse-continue

Hardware watchpoint 2: *(char *) 0x11014

Old value = 101 'e'
New value = 0 '\000'
0x0000000000010020 in ?? ()
