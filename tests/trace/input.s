# The bytes of input that a call takes stand behind its register, in the order of memory.
# rv: trace a.s -o came
# input: ab\n
# same: came wanted
#--- a.s
.option norvc
.globl _start
_start: li a0, 0
  la a1, buffer
  li a2, 8
  li a7, 63
  ecall
  li a0, 0
  li a7, 93
  ecall
.bss
buffer: .space 8
#--- wanted
           1 0000000000010000 _start               13050000 li a0,0                           a0 <- 0000000000000000                                                # a.s:3: _start: li a0, 0
           2 0000000000010004 _start+0x4           97150000 auipc a1,0x1                      a1 <- 0000000000011004                                                # a.s:4: la a1, buffer
           3 0000000000010008 _start+0x8           9385c5ff add a1,a1,-4                      a1 <- 0000000000011000
           4 000000000001000c _start+0xc           13068000 li a2,8                           a2 <- 0000000000000008 8                                              # a.s:5: li a2, 8
           5 0000000000010010 _start+0x10          9308f003 li a7,63                          a7 <- 000000000000003f 63                                             # a.s:6: li a7, 63
           6 0000000000010014 _start+0x14          73000000 ecall                             a0 <- 0000000000000003 3      [0000000000011000] <- 61 62 0a          # a.s:7: ecall
           7 0000000000010018 _start+0x18          13050000 li a0,0                           a0 <- 0000000000000000                                                # a.s:8: li a0, 0
           8 000000000001001c _start+0x1c          9308d005 li a7,93                          a7 <- 000000000000005d 93                                             # a.s:9: li a7, 93
           9 0000000000010020 _start+0x20          73000000 ecall                                                                                                   # a.s:10: ecall
