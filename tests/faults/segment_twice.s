# A second program header of the same segment: the two share their addresses.
# rv: build -o exe a.s
# size: 4108
# patch: exe 38 02
# patch: exe 78 01000000010000000010000000000000000001000000000000000100000000000c000000000000000c000000000000000010000000000000
# rv: run exe
# fault: exe: F8 Overlap
# out:
#--- a.s
.option norvc
.globl _start
_start: li a0, 7
li a7, 93
ecall
