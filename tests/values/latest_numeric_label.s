# In a size a numeric reference means the latest label of that number before it, as in GNU as 2.40, whose bytes these are.
# data: 0100 03 0000 07
.globl _start
_start: nop
.data
1: .half 1
1: .byte 3
2: .zero 2b - 1b + 1
.byte 7
