# A load from nowhere ends the run by SIGSEGV, before the instruction is done; the run goes back from there.
#--- prog.s
.option norvc
.globl _start
_start: li t0, 3
addi t0, t0, 1
ld t1, 0(t0)
li a7, 93
ecall
#--- session
(gdb) continue

Program received signal SIGSEGV, Segmentation fault.
0x0000000000010008 in ?? ()
(gdb) continue

Program received signal SIGSEGV, Segmentation fault.
0x0000000000010008 in ?? ()
(gdb) reverse-stepi
0x0000000000010004 in ?? ()
(gdb) print $t0
$1 = 3
(gdb) stepi
0x0000000000010008 in ?? ()
(gdb) stepi

Program received signal SIGSEGV, Segmentation fault.
0x0000000000010008 in ?? ()
