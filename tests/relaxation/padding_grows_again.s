# With its 14 bytes in full the padding keeps both tails at four bytes. With the two that it comes to, the second tail
# would reach in two, then the first one too, and then the padding has grown to six and the second does not reach. By
# hand.
# map: text 10000 10818
# map: rodata 11000 11000
# map: data 11000 11000
# map: bss 11000 11000
# map: entry 10000
# map: global _start 10000
# map: global g 1080e
# map: global f 10810
# limit: 11
# exit: 0
.globl _start, f, g; _start:
{{7 * nop\n}}tail g; tail f
{{1020 * nop\n}}g: .align 4; f: li a7, 93; ecall
