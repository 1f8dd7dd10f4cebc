# A source is built and run, and so is an executable: its status is the guest's.
# rv: run a.s
# exit: 7
# out:
# errors:
# rv: build -o a a.s
# rv: run a
# exit: 7
#--- a.s
.option norvc
.globl _start
_start: li a0, 7
li a7, 93
ecall
