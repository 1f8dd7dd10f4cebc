# The program without `.option norvc`, as a raw listing; built again it has the same 10 bytes, and is the same file.
# rv: build -o exe a.s
# text: 1d45 9308d005 73000000
# rv: objdump --raw exe
# out is: raw.s
# rv: build -o again raw.s
# same: exe again
# rv: build --no-relax -o again raw.s
# same: exe again
#--- a.s
.globl _start
_start: li a0, 7
li a7, 93
ecall
#--- raw.s
.option norvc
.option norelax
.globl _start
_start:
c.li a0,7
addi a7,zero,93
ecall
