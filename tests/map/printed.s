# What rv build and rv map write of the program of the manual, alone and with an empty source.
# rv: build -o a --map a.map a.s
# out:
# errors:
# size: 4108
# same: a.map wanted.map
# rv: map a.s
# out is: wanted.map
# errors:
# rv: map a.s b.s
# out is: wanted.map
# errors:
# rv: map b.s a.s
# out is: second.map
# errors:
#--- wanted.map
rvmap 1
text 10000 1000c
rodata 11000 11000
data 11000 11000
bss 11000 11000
entry 10000
global _start 10000
global _etext 1000c
global __bss_start 11000
global _edata 11000
global _end 11000
global __global_pointer$ 11800
row 1 3 3 10000 0 0
row 1 3 4 10000 4 1
row 1 4 5 10004 4 1
row 1 5 6 10008 4 1
#--- second.map
rvmap 1
text 10000 1000c
rodata 11000 11000
data 11000 11000
bss 11000 11000
entry 10000
global _start 10000
global _etext 1000c
global __bss_start 11000
global _edata 11000
global _end 11000
global __global_pointer$ 11800
row 2 3 3 10000 0 0
row 2 3 4 10000 4 1
row 2 4 5 10004 4 1
row 2 5 6 10008 4 1
#--- b.s
#--- a.s
.option norvc
.globl _start
_start: li a0, 7
li a7, 93
ecall
