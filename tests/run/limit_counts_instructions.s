# A limit counts instructions, of two bytes or four: these are four, two of them parcels.
# rv: build -o exe limit_counts_instructions.s
# status: 0
# rv: run --limit 3 exe
# end: Limit
# rv: run --limit 4 exe
# exit: 69
.globl _start
_start: li a0, 0x12345; li a7, 93
ecall
