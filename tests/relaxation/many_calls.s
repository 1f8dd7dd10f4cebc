# Twenty thousand calls of one place, each with four bytes. By hand.
# map: text 10000 2388a
# map: rodata 24000 24000
# map: data 24000 24000
# map: bss 24000 24000
# map: entry 10000
# map: global _start 10000
# map: global f 23888
# limit: 40002
# exit: 0
.globl _start, f; _start:
{{20000 * call f\n}}li a7, 93; ecall; f: ret
