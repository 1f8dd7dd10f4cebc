# Back by an instruction, to a breakpoint, and to the start; and on again.
#--- prog.s
.option norvc
.globl _start
_start: li t0, 0
loop: addi t0, t0, 1
li t1, 9
blt t0, t1, loop
mv a0, t0
li a7, 93
ecall
#--- session
(gdb) break *0x10010
Breakpoint 1 at 0x10010
(gdb) continue

Breakpoint 1, 0x0000000000010010 in ?? ()
(gdb) reverse-stepi
0x000000000001000c in ?? ()
(gdb) reverse-stepi
0x0000000000010008 in ?? ()
(gdb) reverse-stepi
0x0000000000010004 in ?? ()
(gdb) print $t0
$1 = 8
(gdb) monitor stats
25 instructions from the start, limit 1000000000000
(gdb) stepi
0x0000000000010008 in ?? ()
(gdb) print $t0
$2 = 9
(gdb) break *0x10008
Breakpoint 2 at 0x10008
(gdb) reverse-continue

Breakpoint 2, 0x0000000000010008 in ?? ()
(gdb) print $t0
$3 = 8
(gdb) condition 2 $t0 == 1
(gdb) reverse-continue

Breakpoint 2, 0x0000000000010008 in ?? ()
(gdb) print $t0
$4 = 1
(gdb) reverse-continue

No more reverse-execution history.
0x0000000000010000 in ?? ()
(gdb) reverse-stepi

No more reverse-execution history.
0x0000000000010000 in ?? ()
(gdb) continue

Breakpoint 2, 0x0000000000010008 in ?? ()
