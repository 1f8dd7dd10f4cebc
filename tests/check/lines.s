# Several statements in a line: each fault is shown in its own. The name of a label is none of an instruction.
# rv: check a.s
# status: 1
# errors:
# out is: wanted
#--- a.s
.globl _start; _start: c.flw fa0,0(a0)
.data; ecall; .text
nop; lw a0, 4096(sp); nop
j 1f; j 2f; 1: nop
#--- wanted
a.s:1: E6 UnknownMnemonic
    .globl _start; _start: c.flw fa0,0(a0)
                           ^^^^^
  c.flw is an instruction of the F extension, which this language leaves out
a.s:2: E15 WrongSection
    .data; ecall; .text
           ^^^^^
  ecall cannot stand in this section: instructions go to .text, data to .data or .rodata
a.s:3: E14 ImmediateRange
    nop; lw a0, 4096(sp); nop
                ^^^^
  lw takes -2048 to 2047 here, 4096 is too large
a.s:4: E12 UndefinedLocal
    j 1f; j 2f; 1: nop
            ^^
  2f has no label: digits with b want it before, with f after this line
4 faults
