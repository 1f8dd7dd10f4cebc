# A run that goes where nothing may be executed: the last step tells that, and none follows. Of a run that --count or --until
# ends, no step tells an end.
# rv: trace --events a.s
# status: 125
# errors is: outside
# rv: trace --events --count 1 -o came a.s
# status: 0
# errors:
# same: came first
# rv: trace --events --until _start a.s
# status: 0
# errors is: none
# rv: trace --events b.s
# status: 125
# errors is: illegal
#--- a.s
.globl _start
.option norvc
_start: jr 8(zero)
#--- b.s
.globl _start
_start: c.nop
.section .text.b,"ax"
.balign 4
nop
#--- outside
0000000000010000 4 00800067
0000000000000008 no right end FetchOutside 0000000000000008
rv: FetchOutside 8
#--- first
0000000000010000 4 00800067
#--- none
#--- illegal
0000000000010000 2 00000013
0000000000010002 no instruction end Illegal 0000000000010002
rv: Illegal 10002
