# A parcel before the alignment, so that a parcel pads, and the padding has a row of two bytes; by hand.
# text: 0100 0100 9308d005 73000000
# map: rvmap 1
# map: text 10000 1000c
# map: rodata 11000 11000
# map: data 11000 11000
# map: bss 11000 11000
# map: entry 10000
# map: global _start 10000
# map: global _etext 1000c
# map: global __bss_start 11000
# map: global _edata 11000
# map: global _end 11000
# map: global __global_pointer$ 11800
# map: row 1 2 2 10000 0 0
# map: row 1 2 3 10000 2 1
# map: row 1 3 4 10002 2 1
# map: row 1 4 5 10004 4 1
# map: row 1 5 6 10008 4 1
# console:
# exit: 0
#--- a.s
.globl _start
_start: nop
.align 2
li a7, 93
ecall
