# How many sources a build takes, where a text may start, and which of several faults is named (docs/manual/faults.md,
# "Linking").
# rv: build -o exe empty.s
# fault: L7 EntryMissing
# rv: build -o exe empty.s empty.s
# fault: L7 EntryMissing
# rv: build -o exe exit.s empty.s
# status: 0
# rv: build -o exe empty.s exit.s
# status: 0
# rv: build -o exe exit.s exit.s
# fault: L6 Duplicate _start
# rv: build -o exe --text-start 4097 exit.s
# fault: L9 BadTextStart
# rv: build -o exe --text-start 0x3ff00000 exit.s
# fault: L9 BadTextStart
# rv: build -o exe --text-start 18446744073709551615 exit.s
# fault: L9 BadTextStart
# rv: build -o exe --text-start 0 exit.s
# status: 0
# rv: build -o exe --text-start 0x3feff000 exit.s
# status: 0
# rv: build -o exe --text-start 4097 exit.s exit.s
# fault: L9 BadTextStart
# rv: build -o exe --text-start 4097 foo.s
# fault: L9 BadTextStart
# rv: build -o exe --text-start 4096 foo.s exit.s exit.s
# fault: foo.s:1: E6 UnknownMnemonic
#--- exit.s
.option norvc
.globl _start
_start: li a7, 93
ecall
#--- empty.s
#--- foo.s
foo a0
