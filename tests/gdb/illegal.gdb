# The second half of a nop is no instruction, and ends the run by SIGILL.
#--- prog.s
.option norvc
.globl _start
_start: li t0, 3
auipc t1, 0
jr 10(t1)
nop
#--- session
(gdb) continue

Program received signal SIGILL, Illegal instruction.
0x000000000001000e in ?? ()
(gdb) print $t0
$1 = 3
(gdb) reverse-stepi
0x0000000000010008 in ?? ()
