# Warnings: a label to which nothing refers, code that nothing leads to, loads and stores off a multiple of their width, and
# a number that is the address of a global name. None is of a label before code after a jump, of a directive there, of a number
# in decimal, or of a section that begins.
# rv: check a.s b.s
# errors:
# out is: wanted
#--- a.s
.globl _start
_start: j 1f
nop
nop
1: lw a0, 6(sp)
used: lh a0, 6(sp)
sd a0, -12(sp)
lw a0, 6(a1)
unused: la a1, used
li a1, 0x11000
li a1, 69632
jal zero, used
.align 2
behind: beqz a0, behind
ret
.data
.globl v
v: .word 1
#--- b.s
.text
lonely: ret
jalr zero, 0(ra)
#--- wanted
text 44, rodata 0, data 4, bss 0 bytes
a.s:3: warning: nothing leads here: the line before jumps away, and there is no label
    nop
    ^^^
a.s:5: warning: the address is no multiple of the width, as sp is one of 16
    1: lw a0, 6(sp)
              ^
a.s:7: warning: the address is no multiple of the width, as sp is one of 16
    sd a0, -12(sp)
            ^^
a.s:9: warning: nothing in this source refers to unused
    unused: la a1, used
    ^^^^^^
a.s:10: warning: this is the address of v today: la follows it when it moves
    li a1, 0x11000
           ^^^^^^^
b.s:2: warning: nothing in this source refers to lonely
    lonely: ret
    ^^^^^^
b.s:3: warning: nothing leads here: the line before jumps away, and there is no label
    jalr zero, 0(ra)
    ^^^^
