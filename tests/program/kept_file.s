# A refused build or link leaves the file that stood there.
# rv: build -o exe good.s
# rv: build -o exe bad.s
# fault: bad.s:1: E6 UnknownMnemonic
# rv: run exe
# exit: 7
#--- good.s
.globl _start
_start: li a0, 7
li a7, 93
ecall
#--- bad.s
foo
