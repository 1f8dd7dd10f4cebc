# A guest that writes a constant, without compressed code. Bytes are the encodings of the ISA manual, the map is by
# docs/manual/files.md.
# rv: build -o exe --map map hello.s
# text: 13051000971500009385c5ff130650009308000473000000130500009308d00573000000
# rodata: 68656c6c6f
# size: 8197
# same: map wanted.map
# rv: run exe
# console: hello
# exit: 0
#--- hello.s
.option norvc
.globl _start
_start: li a0, 1
la a1, msg
li a2, 5; li a7, 64; ecall
li a0, 0; li a7, 93; ecall
.section .rodata
msg: .ascii "hello"
#--- wanted.map
rvmap 1
text 10000 10024
rodata 11000 11005
data 12000 12000
bss 12000 12000
entry 10000
global _start 10000
global _etext 10024
global __bss_start 12000
global _edata 12000
global _end 12000
global __global_pointer$ 12800
row 1 3 3 10000 0 0
row 1 3 4 10000 4 1
row 1 4 5 10004 8 2
row 1 5 6 1000c 4 1
row 1 5 7 10010 4 1
row 1 5 8 10014 4 1
row 1 6 9 10018 4 1
row 1 6 10 1001c 4 1
row 1 6 11 10020 4 1
row 1 8 13 11000 0 0
row 1 8 14 11000 5 0
