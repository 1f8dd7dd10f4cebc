# What gdb writes begins a new run, beyond which it does not go back.
#--- prog.s
.option norvc
.globl _start
_start: lui s0, 0x11
addi sp, sp, -16
li t0, 7
sd t0, 8(sp)
ld t1, 8(sp)
lw t2, 0(s0)
add a0, t1, t2
li a7, 93
ecall
.data
.word 5
#--- session
(gdb) break *0x10010
Breakpoint 1 at 0x10010
(gdb) continue

Breakpoint 1, 0x0000000000010010 in ?? ()
(gdb) set var *(int *) 0x11000 = 20
(gdb) set var $t5 = 0x123456789abcdef0
(gdb) print *(int *) 0x11000
$1 = 20
(gdb) stepi
0x0000000000010014 in ?? ()
(gdb) monitor stats
1 instructions from where gdb wrote a value, which began a new run, limit 1000000000000
(gdb) info registers t0 t1 t5 t6 sp ra
t0             0x7	7
t1             0x7	7
t5             0x123456789abcdef0	1311768467463790320
t6             0x0	0
sp             0x3ffffff0	0x3ffffff0
ra             0x0	0x0
(gdb) delete
(gdb) reverse-continue

No more reverse-execution history.
0x0000000000010010 in ?? ()
(gdb) print $t5
$2 = 1311768467463790320
(gdb) set var $pc = 0x10004
(gdb) stepi
0x0000000000010008 in ?? ()
(gdb) print $sp
$3 = (void *) 0x3fffffe0
(gdb) set var $pc = 0x10010
(gdb) set var *(long *) ($sp + 8) = 2
(gdb) continue
[Inferior 1 (Remote target) exited with code 026]
