# A loop of three turns, with an instruction of each format: a later turn counts at the places of the first. The lines of
# events have no more than the bytes of a fence.
# rv: stats a.s
# errors has: instructions                           35
# errors has: loads                                   6
# errors has: stores                                  9
# errors has:   addi                                  7      20.0 %
# errors has:   amoadd.d                              3       8.6 %
# errors has:   beq                                   3       8.6 %
# errors has:   fence                                 3       8.6 %
# errors has:   lr.d                                  3       8.6 %
# errors has:   lui                                   3       8.6 %
# errors has:   sc.d                                  3       8.6 %
# errors has:   sd                                    3       8.6 %
# errors has:   slli                                  3       8.6 %
# errors has:   jal                                   2       5.7 %
# rv: trace --events a.s
# errors has: 0000000000010024 4 0310000f
#--- a.s
.option norvc
.globl _start
_start: li s0, 3
la s1, word
next: lui t0, 1
slli t0, t0, 2
sd t0, (s1)
amoadd.d t1, t0, (s1)
lr.d t1, (s1)
sc.d t2, t0, (s1)
fence rw, w
addi s0, s0, -1
beqz s0, end
j next
end: li a0, 0
li a7, 93
ecall
.bss
.balign 8
word: .zero 8
