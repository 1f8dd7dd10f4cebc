# A breakpoint, registers, memory and steps; the status of the exit is octal, as gdb says it.
#--- prog.s
.option norvc
.globl _start
_start: li t0, 0
loop: addi t0, t0, 1
li t1, 9
blt t0, t1, loop
mv a0, t0
li a7, 93
ecall
#--- session
(gdb) print $pc
$1 = (void (*)()) 0x10000
(gdb) break *0x10010
Breakpoint 1 at 0x10010
(gdb) continue

Breakpoint 1, 0x0000000000010010 in ?? ()
(gdb) info registers t0 t1 sp pc
t0             0x9	9
t1             0x9	9
sp             0x40000000	0x40000000
pc             0x10010	0x10010
(gdb) x/2xw 0x10000
0x10000:	0x00000293	0x00128293
(gdb) x/xw 0
0x0:	Cannot access memory at address 0x0
(gdb) stepi
0x0000000000010014 in ?? ()
(gdb) print $a0
$2 = 9
(gdb) info threads
  Id   Target Id         Frame
* 1    Thread 1          0x0000000000010014 in ?? ()
(gdb) continue
[Inferior 1 (Remote target) exited with code 011]
