# A weak definition without an address is chosen as any other: what refers to it is refused, and the map has no line for
# it, nor for a symbol of the linker's of its name. One that is not chosen does no harm. GNU ld 2.40 takes its offset.
# rv: build -o exe use.s other.s first.s
# rv: run exe
# exit: 3
# rv: build -o exe use.s first.s other.s
# fault: L5 Undefined h
# rv: build -o exe --map map first.s idle.s
# no map: global h
# no map: global _end
# map: global _edata 11000
# rv: build -o exe constant.s five.s nine.s
# rv: run exe
# exit: 5
# rv: build -o exe constant.s nine.s five.s
# rv: run exe
# exit: 9
# rv: build -o exe constant.s five.s nine.s three.s
# rv: run exe
# exit: 3
# rv: build -o exe --map map constant.s five.s three.s
# map: global c 3
# no map: global c 5
# rv: build -o exe weak_use.s strong_use.s
# fault: L5 Undefined f
# rv: build -o exe weak_use.s local.s
# rv: run exe
# exit: 0
#--- use.s
.globl _start
_start: call h
li a7, 93
ecall
#--- other.s
.weak h
h: li a0, 3
ret
#--- first.s
.weak h, _end
.section .note.x
h: _end: .word 1
#--- idle.s
.globl _start
_start: nop
#--- constant.s
.globl _start
_start: addi a0, zero, %lo(c)
li a7, 93
ecall
#--- five.s
.weak c
.set c, 5
#--- nine.s
.weak c
.set c, 9
#--- three.s
.globl c
.set c, 3
#--- weak_use.s
.globl _start
.weak f
_start: la a0, f
li a7, 93
ecall
#--- strong_use.s
.data
.dword f
#--- local.s
f: nop
