# As many sources as can be linked, 1,024, and one more: the fault of their count comes before their own and before
# that of the text's start.
# rv: build -o exe exit.s {{1023 * empty.s }}
# status: 0
# rv: run exe
# console:
# exit: 0
# rv: build -o exe exit.s {{1023 * empty.s }} bad.s
# fault: L10 TooManyFiles
# rv: build -o exe --text-start 1 exit.s {{1023 * empty.s }} bad.s
# fault: L10 TooManyFiles
#--- exit.s
.option norvc
.globl _start
_start: li a7, 93
ecall
#--- empty.s
#--- bad.s

