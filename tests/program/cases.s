# What `rv test` says of cases that pass and that fail, and of sources that are none; a status of 1 where one fails.
# rv: test passes.s
# out: 1 passed, 0 failed\n
# rv: test passes.s status.s console.s end.s limit.s instructions.s
# status: 1
# out is: words.txt
# rv: test refused.s built.s refused_otherwise.s
# status: 1
# out is: refusals.txt
# rv: test misspelled.s capital.s twice.s nothing.s both.s number.s repeated.s several.s missing.s near.s spaced.s behind.s
# status: 1
# out is: none.txt
# rv: test --json passes.s status.s
# status: 1
# out is: objects.txt
# rv: test
# status: 2
# error: For more information, try '--help'.
# rv: test --junit report.xml passes.s console.s
# status: 1
# out has: 1 passed, 1 failed
#--- passes.s
# Reads two letters, and writes the second.
# input: a
# input: b
# console: b
# exit: 3
# limit: 1k
# instructions: 13
.globl _start
_start: addi a1, sp, -16; li a2, 2; li a0, 0; li a7, 63; ecall
addi a1, a1, 1; li a2, 1; li a0, 1; li a7, 64; ecall; li a0, 3; li a7, 93; ecall
#--- status.s
# exit: 7
.globl _start
_start: li a0, 8; li a7, 93; ecall
#--- console.s
# console: one\ntwo\n\x1b"<&
.globl _start
_start: la a1, text; li a2, 7; li a0, 1; li a7, 64; ecall; li a0, 0; li a7, 93; ecall
.section .rodata
text: .ascii "one\ntoo"
#--- end.s
# exit: 0
.option norvc
.globl _start
_start: lw a0, 4(zero)
#--- limit.s
# end: Breakpoint
# limit: 9
.globl _start
_start: j _start
#--- instructions.s
# exit: 0
# instructions: 2
.globl _start
_start: li a0, 0; li a7, 93; ecall
#--- words.txt
status.s: wanted exit 7, came exit 8
console.s: the console differs
  line 2 of the console
    wanted two\n
    came   too
end.s: wanted exit 0, came LoadOutside 4
  at
    0000000000010000 _start               lw a0,4(zero)
    end.s:4: _start: lw a0, 4(zero)
  access
    load of 4 bytes at 0000000000000004, in no segment
limit.s: wanted Breakpoint, came Limit
  at
    0000000000010000 _start               j 0x10000 <_start>
    limit.s:4: _start: j _start
instructions.s: wanted exit 0, came more than 2 instructions
  at
    0000000000010006 _start+0x6           ecall
    instructions.s:4: _start: li a0, 0; li a7, 93; ecall
1 passed, 5 failed
#--- refused.s
# fault: refused.s:2: E6 UnknownMnemonic
subi a0, a0, 1
#--- built.s
# fault: built.s:2: E6 UnknownMnemonic
.globl _start
_start: ebreak
#--- refused_otherwise.s
# exit: 0
.globl _start
_start: subi a0, a0, 1
#--- refusals.txt
built.s: wanted built.s:2: E6 UnknownMnemonic, but the build is not refused
refused_otherwise.s: wanted exit 0, but the build is refused: refused_otherwise.s:3: E6 UnknownMnemonic
1 passed, 2 failed
#--- misspelled.s
# The first letters are exchanged.
# exti: 7
#--- capital.s
# Exit: 7
#--- twice.s
# exit: 7
# exit: 8
#--- nothing.s
# Author: nobody
#--- both.s
# exit: 7
# end: Breakpoint
#--- number.s
# exit: 256
#--- repeated.s
# input: {{a}}
#--- several.s
# exit: 7
#---a.s
#--- near.s
#exit: 7
#--- spaced.s
# exit: 7
#  input: 7
#--- behind.s
# A head ends at an empty line.
# console:

# exit: 7
#--- none.txt
misspelled.s:2: exti is no key of a case; the keys are exit, end, console, fault, input, limit and instructions
capital.s:1: Exit is no key of a case; the keys are exit, end, console, fault, input, limit and instructions
twice.s:2: exit is given twice
nothing.s: nothing says what must come: no exit, end, console or fault
both.s: exit and end cannot both come
number.s:1: an exit is a decimal number from 0 to 255
repeated.s:1: a repeated text is not taken here; \x7b is a brace
several.s:2: a case is one source
missing.s: cannot read
near.s:1: exit has to stand behind # and one blank, as # exit: ..
spaced.s:2: input has to stand behind # and one blank, as # input: ..
behind.s:4: exit stands behind the head, which ends at its first line without #
0 passed, 12 failed
#--- objects.txt
{"case":"passes.s","passed":true}
{"case":"status.s","details":"","message":"wanted exit 7, came exit 8","passed":false}
{"failed":1,"passed":1}
