# A name whose definition is refused is not called undefined or out of range afterwards, nor is a name that is defined by it.
# rv: check a.s
# status: 1
# errors:
# out is: wanted
#--- a.s
.globl _start
.set nmi, handler
.set k, foo bar
_start: call nmi
li a0, k
.set m, k + 1
addi a0, a0, m
bar
.comm x, 4
lw a0, %lo(x)(a1)
handler: ret
li a0, later
#--- wanted
a.s:3: E7 BadOperands
    .set k, foo bar
                ^^^
  .set does not take bar here
a.s:8: E6 UnknownMnemonic
    bar
    ^^^
  bar is the name of no instruction: a label ends with a colon, bar:
a.s:9: E9 UnsupportedHere
    .comm x, 4
    ^^^^^
  .comm is left out of this language: a label and .zero in .bss do it, with .globl
a.s:2: E13 NotConstant
    .set nmi, handler
              ^^^^^^^
  handler is no number that is known at this line, and a number has to stand here
a.s:12: E13 NotConstant
    li a0, later
           ^^^^^
  later is no number that is known at this line, and a number has to stand here; la a0, later loads a label's address
5 faults
