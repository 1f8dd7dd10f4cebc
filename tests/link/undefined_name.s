# No source defines the target of the tail.
# fault: L5 Undefined f
.globl _start
_start: li a0, 0
loop: addi a0, a0, 1; li t0, 3; blt a0, t0, loop; tail f
