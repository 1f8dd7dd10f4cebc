# Functions by how often they are called, and those called as often by their addresses; counted by hand.
# rv: stats a.s
# errors is: wanted
#--- a.s
.option norvc
.globl _start, twice, once, last
_start: call last
  call twice
  call once
  call twice
  li a0, 0
  li a7, 93
  ecall
once: ret
twice: ret
last: ret
#--- wanted
instructions                           11
compressed                              0       0.0 %
loads                                   0
bytes read                              0
stores                                  0
bytes written                           0
branches taken                          0
branches not taken                      0
deepest stack                           0
by kind
  arithmetic                            2      18.2 %
  load                                  0       0.0 %
  store                                 0       0.0 %
  atomic                                0       0.0 %
  branch                                0       0.0 %
  jump                                  8      72.7 %
  other                                 1       9.1 %
by mnemonic
  jal                                   4      36.4 %
  jalr                                  4      36.4 %
  addi                                  2      18.2 %
  ecall                                 1       9.1 %
calls
  twice                                 2
  once                                  1
  last                                  1
