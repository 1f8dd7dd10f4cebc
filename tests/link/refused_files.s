# The other faults of a link of several sources, and which of two comes first: no global `_start` in a section of
# text, more than 256 MiB, an address past 32 bits (docs/manual/faults.md, "Linking").
# rv: build -o exe seven.s local_start.s
# fault: L7 EntryMissing
# rv: build -o exe seven.s constant_start.s
# fault: L7 EntryMissing
# rv: build -o exe exit.s half.s half.s
# fault: L8 ImageTooLarge
# rv: build -o exe half.s half.s half.s
# fault: L7 EntryMissing
# rv: build -o exe half.s half.s x.s
# fault: L5 Undefined x
# rv: build -o exe exit.s far.s
# status: 0
# rv: build -o exe exit.s further.s
# fault: L1 Overflow
# rv: build -o exe exit.s further.s half.s half.s
# fault: L8 ImageTooLarge
#--- exit.s
.option norvc
.globl _start
_start: li a7, 93
ecall
#--- seven.s
.option norvc
.globl f, g
.data
v: .byte 3
.balign 4
f: .word 7
g: .word v
#--- local_start.s
_start: .globl f
#--- constant_start.s
.globl _start
.set _start, 4096
#--- half.s
.bss
.zero 134217728
#--- x.s
.data
.word x
#--- far.s
.data
.word _start + 0xfffeffff
#--- further.s
.data
.word _start + 0xffff0000
