# A guest that writes constants, whose address it knows. Bytes are the encodings of the ISA manual, the map is by
# docs/manual/files.md.
# rv: build -o exe --map map hello.s
# rodata: 68656c6c6f
# size: 8197
# same: map wanted.map
# rv: run exe
# console: hello
# exit: 0
#--- hello.s
.option norvc
.globl _start
_start: li a0, 1
lui a1, 17
li a2, 5
li a7, 64
ecall
li a0, 0
li a7, 93
ecall
.section .rodata
msg: .ascii "hello"
#--- wanted.map
rvmap 1
text 10000 10020
rodata 11000 11005
data 12000 12000
bss 12000 12000
entry 10000
global _start 10000
global _etext 10020
global __bss_start 12000
global _edata 12000
global _end 12000
global __global_pointer$ 12800
row 1 3 3 10000 0 0
row 1 3 4 10000 4 1
row 1 4 5 10004 4 1
row 1 5 6 10008 4 1
row 1 6 7 1000c 4 1
row 1 7 8 10010 4 1
row 1 8 9 10014 4 1
row 1 9 10 10018 4 1
row 1 10 11 1001c 4 1
row 1 12 13 11000 0 0
row 1 12 14 11000 5 0
