# A file's own name comes before the global one: it exits with its own `f`.
# rv: build -o exe own.s seven.s
# status: 0
# rv: run exe
# console:
# exit: 5
#--- own.s
.option norvc
.globl _start
_start: lui a1, 17
lw a1, 0(a1)
lw a0, 0(a1)
li a7, 93
ecall
.data
p: .word f
v: .byte 1
.balign 4
f: .word 5
#--- seven.s
.option norvc
.globl f, g
.data
v: .byte 3
.balign 4
f: .word 7
g: .word v
