# A run stops at a limit, and goes on where there is another; a step there ends too.
#--- prog.s
.option norvc
.globl _start
_start: addi t0, t0, 1
j _start
#--- session
(gdb) monitor limit 1001
(gdb) continue

Program received signal SIGXCPU, CPU time limit exceeded.
0x0000000000010004 in ?? ()
(gdb) print $t0
$1 = 501
(gdb) monitor stats
1001 instructions from the start, limit 1001
(gdb) monitor limit 2000
(gdb) continue

Program received signal SIGXCPU, CPU time limit exceeded.
0x0000000000010000 in ?? ()
(gdb) print $t0
$2 = 1000
(gdb) stepi

Program received signal SIGXCPU, CPU time limit exceeded.
0x0000000000010000 in ?? ()
(gdb) monitor help
monitor stats: where the run stands
monitor limit N: stop after N instructions
