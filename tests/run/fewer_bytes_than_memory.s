# The file has 8 of the 12 bytes of the segment's memory; the others are zeros, so the ecall is gone.
# rv: build -o exe --map map a.s
# size: 4108
# patch: exe 60 08
# rv: objdump --map map exe
# out: @ 1 3 4\n10000: addi a0,zero,7\n@ 1 4 5\n10004: addi a7,zero,93\n@ 1 5 6\n10008: unknown\n1000a: unknown\n
# rv: run exe
# end: Illegal 10008
#--- a.s
.option norvc
.globl _start
_start: li a0, 7
li a7, 93
ecall
