# A guest that writes a constant, as a source begins, with compressed code. Bytes are the encodings of the ISA manual,
# the map is by docs/manual/files.md.
# rv: build -o exe --map map hello.s
# text: 0545971500009385e5ff1546930800047300000001459308d00573000000
# rodata: 68656c6c6f
# size: 8197
# same: map wanted.map
# rv: run exe
# console: hello
# exit: 0
#--- hello.s
.globl _start
_start: li a0, 1
la a1, msg
li a2, 5; li a7, 64; ecall
li a0, 0; li a7, 93; ecall
.section .rodata
msg: .ascii "hello"
#--- wanted.map
rvmap 1
text 10000 1001e
rodata 11000 11005
data 12000 12000
bss 12000 12000
entry 10000
global _start 10000
global _etext 1001e
global __bss_start 12000
global _edata 12000
global _end 12000
global __global_pointer$ 12800
row 1 2 2 10000 0 0
row 1 2 3 10000 2 1
row 1 3 4 10002 8 2
row 1 4 5 1000a 2 1
row 1 4 6 1000c 4 1
row 1 4 7 10010 4 1
row 1 5 8 10014 2 1
row 1 5 9 10016 4 1
row 1 5 10 1001a 4 1
row 1 7 12 11000 0 0
row 1 7 13 11000 5 0
