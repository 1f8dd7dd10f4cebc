# Options with their values attached, behind the source.
# rv: build a.s -oa --text-start=131072
# out:
# errors:
# rv: build -o b --text-start 131072 a.s
# size: 4108
# same: a b
# rv: run a
# exit: 7
#--- a.s
.option norvc
.globl _start
_start: li a0, 7
li a7, 93
ecall
