# Back from far over states that were kept on the way: what was read, written and stored is as it was.
# rv: --input words prog.s
#--- prog.s
.option norvc
.globl _start
_start: lui s0, 0x11
li t0, 7
sw t0, 8(s0)
li t1, 2000000
first: addi t0, t0, 1
blt t0, t1, first
li a0, 0
mv a1, s0
li a2, 4
li a7, 63
ecall
li a0, 1
li a7, 64
ecall
li t1, 4000000
second: addi t0, t0, 1
blt t0, t1, second
li a0, 0
li a7, 93
ecall
.data
.zero 16
#--- words
one two
#--- session
(gdb) break *0x10050
Breakpoint 1 at 0x10050
(gdb) continue
one
Breakpoint 1, 0x0000000000010050 in ?? ()
(gdb) monitor stats
8000002 instructions from the start, limit 1000000000000
(gdb) reverse-stepi
0x000000000001004c in ?? ()
(gdb) reverse-stepi
0x0000000000010048 in ?? ()
(gdb) print $t0
$1 = 4000000
(gdb) watch *(int *) 0x11000
Hardware watchpoint 2: *(int *) 0x11000
(gdb) reverse-continue

Hardware watchpoint 2: *(int *) 0x11000

...
(gdb) print $pc
...
