# Begins a program of C: the linker may address variables from gp (psABI, "Global Pointer Relaxation"), and what main
# gives back is the exit status.
.globl _start
_start:
.option push
.option norelax
la gp, __global_pointer$
.option pop
call main
call exit
