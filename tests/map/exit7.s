# A guest as a source begins, with compressed code: its bytes and its whole map, by hand from the ISA's tables and
# docs/manual/files.md. The dump shows the file's flag of compressed code (1 at offset 30h).
# rv: build -o exe --map map exit7.s
# text: 1d45 9308d005 73000000
# map: rvmap 1
# map: text 10000 1000a
# map: rodata 11000 11000
# map: data 11000 11000
# map: bss 11000 11000
# map: entry 10000
# map: global _start 10000
# map: global _etext 1000a
# map: global __bss_start 11000
# map: global _edata 11000
# map: global _end 11000
# map: global __global_pointer$ 11800
# map: row 1 2 2 10000 0 0
# map: row 1 2 3 10000 2 1
# map: row 1 3 4 10002 4 1
# map: row 1 4 5 10006 4 1
# size: 4106
# rv: run exe
# console:
# exit: 7
# rv: dump exe
# out has: 00000030: 01000000400038000100000000000000
#--- exit7.s
.globl _start
_start: li a0, 7
li a7, 93
ecall
