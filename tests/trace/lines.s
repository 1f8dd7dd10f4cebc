# How often each line was executed, counted by hand: a loop of three turns, a second sc that stores nothing, and two lines
# that are never reached. The tracefile is as geninfo(1) of lcov says.
# rv: stats --lines --lcov came a.s
# errors is: wanted
# same: came info
#--- a.s
.globl _start
_start: li s0, 3
1: lbu t0, -1(sp)
  addi s0, s0, -1
  bnez s0, 1b
  beqz sp, never
  la t1, v
  lr.w t2, (t1)
  sc.w t3, t2, (t1)
  sc.w t3, t2, (t1)
  amoadd.d t4, t0, (t1)
  sh t0, 0(t1)
  li a0, 0; li a7, 93
  ecall
never: nop
  j never
.data
v: .dword 0
#--- wanted
instructions                           21
compressed                              8      38.1 %
loads                                   5
bytes read                             15
stores                                  3
bytes written                          14
branches taken                          2
branches not taken                      2
deepest stack                           0
by kind
  arithmetic                            8      38.1 %
  load                                  3      14.3 %
  store                                 1       4.8 %
  atomic                                4      19.0 %
  branch                                4      19.0 %
  jump                                  0       0.0 %
  other                                 1       4.8 %
by mnemonic
  addi                                  7      33.3 %
  bne                                   3      14.3 %
  lbu                                   3      14.3 %
  sc.w                                  2       9.5 %
  amoadd.d                              1       4.8 %
  auipc                                 1       4.8 %
  beq                                   1       4.8 %
  ecall                                 1       4.8 %
  lr.w                                  1       4.8 %
  sh                                    1       4.8 %
calls
a.s:2 1
a.s:3 3
a.s:4 3
a.s:5 3
a.s:6 1
a.s:7 1
a.s:8 1
a.s:9 1
a.s:10 1
a.s:11 1
a.s:12 1
a.s:13 1
a.s:13 1
a.s:14 1
a.s:15 0
a.s:16 0
never executed 2 of 16 statements
#--- info
TN:
SF:a.s
DA:2,1
DA:3,3
DA:4,3
DA:5,3
DA:6,1
DA:7,1
DA:8,1
DA:9,1
DA:10,1
DA:11,1
DA:12,1
DA:13,1
DA:14,1
DA:15,0
DA:16,0
LF:15
LH:13
end_of_record
