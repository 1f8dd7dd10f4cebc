# The guest's input is a file, and what it writes is shown once, however often the run comes by there.
# rv: --input words prog.s
#--- prog.s
.option norvc
.globl _start
_start: lui s0, 0x11
li a0, 0
mv a1, s0
li a2, 4
li a7, 63
ecall
mv a2, a0
li a0, 1
li a7, 64
ecall
mv s1, a0
li a0, 0
li a7, 93
ecall
.data
.zero 8
#--- words
one two
#--- session
(gdb) break *0x10028
Breakpoint 1 at 0x10028
(gdb) continue
one
Breakpoint 1, 0x0000000000010028 in ?? ()
(gdb) print $a0
$1 = 4
(gdb) break *0x10014
Breakpoint 2 at 0x10014
(gdb) reverse-continue

Breakpoint 2, 0x0000000000010014 in ?? ()
(gdb) x/s 0x11000
0x11000:	""
(gdb) stepi
0x0000000000010018 in ?? ()
(gdb) x/s 0x11000
0x11000:	"one "
(gdb) continue

Breakpoint 1, 0x0000000000010028 in ?? ()
