# The byte that is stored lies in code that begins at F000h.
# options: --text-start 0xf000
# end: StoreText fff9
.option norvc
.globl _start
_start: lui t0, 16
sb zero, -7(t0)
{{1100 * nop\n}}