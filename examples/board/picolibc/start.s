# Begins a program of C on the board virt: a stack, and gp, from which the linker may address variables (psABI, "Global
# Pointer Relaxation"). It is linked first, so that _start stands at 0x80000000. What main gives back is the status.
.globl _start
_start:
.option push
.option norelax
la gp, __global_pointer$
.option pop
la sp, stack_top
call main
call exit

# exit of picolibc calls these where they are defined, and else compares them with 0, which code does not reach from here
.weak __call_exitprocs, _fini, __fini_array_start, __fini_array_end
__call_exitprocs:
_fini:
__fini_array_start:
__fini_array_end:
ret

.bss
.balign 16
.zero 0x10000
stack_top:
