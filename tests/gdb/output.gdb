# What the guest writes goes to a file.
# rv: --output written prog.s
# file written: hello\n
#--- prog.s
.option norvc
.globl _start
_start: li a0, 1
lui a1, 0x11
li a2, 6
li a7, 64
ecall
li a0, 0
li a7, 93
ecall
.data
.ascii "hello\n"
#--- session
(gdb) continue
[Inferior 1 (Remote target) exited normally]
