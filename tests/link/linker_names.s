# `_end` is the linker's where no file defines it.
# rv: build -o exe shows_end.s end.s
# data: 0410010009000000
# rv: build -o exe shows_end.s
# status: 0
#--- shows_end.s
.option norvc
.globl _start
_start: li a7, 93
ecall
.data
.word _end
.globl w
w: .word 9
#--- end.s
.globl _end
.set _end, 0x11004
