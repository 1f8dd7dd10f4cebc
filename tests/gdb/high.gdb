# A write has room for its loader and for the stack where a segment begins just above 2^33.
# gcc: -Wl,-Ttext=0x200000200,-N
#--- start.s
.option norvc
.globl _start
_start: nop
nop
nop
#--- prog.c
int unused;
#--- session
(gdb) set var *(long *) 0x3fffff00 = 7
(gdb) stepi
...
(gdb) print/x $pc
$1 = 0x200000204
(gdb) print *(long *) 0x3fffff00
$2 = 7
