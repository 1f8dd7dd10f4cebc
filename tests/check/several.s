# Behind the first fault: the faults of each round, of the first source and then of the next. A label before a faulty
# statement stays, and an assignment that has no value is one of 0, so that neither makes a fault of another line.
# rv: check a.s b.s
# status: 1
# errors:
# out is: wanted
#--- a.s
.globl _start
_start: addi a0, zero, 5000
f: foo a0; addi a1, a1, 1, 2
.set k, 1 / 0
addi a0, a0, k
call f
nop; x: addi a1, a1, 3000; nop
x: nop
#--- b.s
.globl g
g: frob
#--- wanted
a.s:3: E6 UnknownMnemonic
    f: foo a0; addi a1, a1, 1, 2
       ^^^
  foo is the name of no instruction
a.s:3: E7 BadOperands
    f: foo a0; addi a1, a1, 1, 2
                             ^
  addi does not take a comma here; the form is addi rd, rs1, number
a.s:4: E4 DivisionByZero
    .set k, 1 / 0
                ^
  a division by 0 has no value; another number may stand here
a.s:8: E11 DuplicateLabel
    x: nop
    ^
  x is defined at line 7, and a name has one definition
a.s:2: E14 ImmediateRange
    _start: addi a0, zero, 5000
                           ^^^^
  addi takes -2048 to 2047 here, 5000 is too large; li a0, 5000 loads it
a.s:7: E14 ImmediateRange
    nop; x: addi a1, a1, 3000; nop
                         ^^^^
  addi takes -2048 to 2047 here, 3000 is too large; li loads it, and add adds it
b.s:2: E6 UnknownMnemonic
    g: frob
       ^^^^
  frob is the name of no instruction: a label ends with a colon, frob:
7 faults
