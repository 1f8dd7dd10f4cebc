# A text that fills its page up to the next region: it runs, and what goes on behind its end is no code there
# (docs/manual/platform.md, "How a run ends").
# map: text 10000 11000
# map: data 11000 11004
# end: FetchOutside 11000
.option norvc
.globl _start
_start: j last
{{1022 * nop\n}}last: nop
.data
.word 0x00000073
