# Ctrl-C stops a loop without end; from there it goes back, and on again.
#--- prog.s
.option norvc
.globl _start
_start: addi t0, t0, 1
j _start
#--- session
(gdb) python import os, signal, threading
(gdb) python threading.Timer(0.3, lambda: os.kill(os.getpid(), signal.SIGINT)).start()
(gdb) continue

Program received signal SIGINT, Interrupt.
...
(gdb) print $t0 > 100
$1 = 1
(gdb) set $before = $t0
(gdb) reverse-stepi
...
(gdb) reverse-stepi
...
(gdb) print $before - $t0
$2 = 1
(gdb) python threading.Timer(0.3, lambda: os.kill(os.getpid(), signal.SIGINT)).start()
(gdb) continue

Program received signal SIGINT, Interrupt.
...
(gdb) print $t0 > $before
$3 = 1
