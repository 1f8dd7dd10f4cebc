# What `list` refuses: what `build` does.
# rv: list nothere.s
# fault: nothere.s: cannot read
# rv: list a.s
# fault: a.s:2: E6 UnknownMnemonic
#--- a.s
.globl _start
_start: nothing
