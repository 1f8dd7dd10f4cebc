# Two sources that have a `loop` each, of which the second's is global: each goes to its own. By hand.
# options: --no-relax
# limit: 99
# console:
# exit: 11
#--- a.s
.globl _start
_start: li a0, 0
loop: addi a0, a0, 1; li t0, 3; blt a0, t0, loop; tail f
#--- b.s
.globl f, loop
f: loop: addi a0, a0, 4; li t0, 10; blt a0, t0, loop; li a7, 93; ecall
