# A gap before an aligned section of code, which holds zeros; a run into it ends there. By hand.
# text: 0100 {{14 * 00}} 0100
# map: rvmap 1
# map: text 10000 10012
# map: rodata 11000 11000
# map: data 11000 11000
# map: bss 11000 11000
# map: entry 10000
# map: gap 10002 10010
# map: global _start 10000
# map: global _etext 10012
# map: global __bss_start 11000
# map: global _edata 11000
# map: global _end 11000
# map: global __global_pointer$ 11800
# map: row 1 2 2 10000 0 0
# map: row 1 2 3 10000 2 1
# map: row 1 4 5 10010 0 0
# map: row 1 5 6 10010 2 1
# limit: 1000
# end: Illegal 10002
#--- a.s
.globl _start
_start: nop
.section .text.b,"ax"
.align 4
nop
