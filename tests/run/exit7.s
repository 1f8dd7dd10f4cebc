# A guest that exits, and nothing else. Bytes are the encodings of the ISA manual, the map is by docs/manual/files.md.
# rv: build -o exe --map map exit7.s
# text: 130570009308d00573000000
# size: 4108
# same: map wanted.map
# rv: run exe
# console:
# exit: 7
#--- exit7.s
.option norvc
.globl _start
_start: li a0, 7
li a7, 93
ecall
#--- wanted.map
rvmap 1
text 10000 1000c
rodata 11000 11000
data 11000 11000
bss 11000 11000
entry 10000
global _start 10000
global _etext 1000c
global __bss_start 11000
global _edata 11000
global _end 11000
global __global_pointer$ 11800
row 1 3 3 10000 0 0
row 1 3 4 10000 4 1
row 1 4 5 10004 4 1
row 1 5 6 10008 4 1
