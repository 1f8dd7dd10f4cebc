# `call f`, `li a7, 93`, `ecall` and `f: ret` of an object without rows: the call has four bytes in the program, and the
# map its names alone; without a map the executable is the same. By hand.
# rv: ld -o exe --map map a.o
# text: ef00c000 9308d005 73000000 8280
# rodata:
# data:
# map: rvmap 1
# map: text 10000 1000e
# map: rodata 11000 11000
# map: data 11000 11000
# map: bss 11000 11000
# map: entry 10000
# map: global _start 10000
# map: global _etext 1000e
# map: global __bss_start 11000
# map: global _edata 11000
# map: global _end 11000
# map: global __global_pointer$ 11800
# rv: ld -o bare a.o
# same: bare exe
#--- a.o object
rvc
section .text ax 2: 97000000 e7800000 9308d005 73000000 8280
reloc 0 CALL_PLT f
reloc 0 RELAX
symbol f local 1 16
symbol _start global 1 0
