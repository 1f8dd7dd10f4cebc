# What --gc-sections leaves out is defined, and has the address 0 in sections without `a`, as in those of GNU ld.
# rv: build -g --gc-sections -o exe dropped_in_unloaded.s other.s
# section .debug_x: 000000000000000005
# rv: as -g -o a.o dropped_in_unloaded.s
# rv: as -g -o b.o other.s
# rv: ld -g --gc-sections -o exe a.o b.o
# section .debug_x: 000000000000000005
#--- dropped_in_unloaded.s
.globl _start
_start: ret
.section .debug_x, ""
.8byte f
.byte 5
#--- other.s
.section .text.f, "ax"
.globl f
f: ret
