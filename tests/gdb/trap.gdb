# A breakpoint of the program's own ends the run by SIGTRAP.
#--- prog.s
.option norvc
.globl _start
_start: li t0, 3
ebreak
#--- session
(gdb) continue

Program received signal SIGTRAP, Trace/breakpoint trap.
0x0000000000010004 in ?? ()
(gdb) print $t0
$1 = 3
