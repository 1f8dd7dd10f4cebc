# The sources of a folder in the order of their names: what stands beside a source is its input and its console.
# rv: test .
# status: 1
# out is: words
# rv: test --junit report.xml ./
# status: 1
# out is: words
#--- echo.s
# exit: 4
.globl _start
_start: addi a1, sp, -16; li a2, 4; li a0, 0; li a7, 63; ecall; mv a2, a0; mv s0, a0
li a0, 1; li a7, 64; ecall; mv a0, s0; li a7, 93; ecall
#--- echo.in
abc
#--- echo.out
abc
#--- other.s
.globl _start
_start: li a0, 0; li a7, 93; ecall
#--- other.out
none
#--- refused.s
# exit: 0
.globl _start
_start: foo
#--- said.s
# console: none
.globl _start
_start: li a0, 0; li a7, 93; ecall
#--- said.out
none
#--- words
./other.s: the console differs
  line 1 of the console
    wanted none\n
    came   nothing
./refused.s: wanted exit 0, but the build is refused: ./refused.s:3: E6 UnknownMnemonic
./said.s: console is given twice
1 passed, 3 failed
