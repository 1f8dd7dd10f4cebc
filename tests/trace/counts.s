# What a run of eight instructions executes, counted by hand.
# rv: stats a.s
# out:
# errors is: wanted
# rv: build -o exe --map map a.s
# rv: stats exe
# errors has:   0x10018                               1
# rv: stats --map map exe
# errors is: wanted
#--- a.s
.option norvc
.globl _start, f
_start: li a0, 0
  addi sp, sp, -16
  call f
  ld a1, 8(sp)
  li a7, 93
  ecall
f: sd ra, 8(sp)
  ret
#--- wanted
instructions                            8
compressed                              0       0.0 %
loads                                   1
bytes read                              8
stores                                  1
bytes written                           8
branches taken                          0
branches not taken                      0
deepest stack                          16
by kind
  arithmetic                            3      37.5 %
  load                                  1      12.5 %
  store                                 1      12.5 %
  atomic                                0       0.0 %
  branch                                0       0.0 %
  jump                                  2      25.0 %
  other                                 1      12.5 %
by mnemonic
  addi                                  3      37.5 %
  ecall                                 1      12.5 %
  jal                                   1      12.5 %
  jalr                                  1      12.5 %
  ld                                    1      12.5 %
  sd                                    1      12.5 %
calls
  f                                     1
