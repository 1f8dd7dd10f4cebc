# An sc that failed stores nothing, so that its line shows no store and no address. Bytes and values are those of the ISA.
# rv: trace a.s
# errors is: wanted
#--- a.s
.option norvc
.globl _start
_start: la a1, word
  lr.w t0, (a1)
  sc.w t1, t0, (a1)
  sc.w t1, t0, (a1)
  sc.w zero, t0, (a1)
  li a0, 0
  li a7, 93
  ecall
.data
.balign 8
word: .dword 5
#--- wanted
           1 0000000000010000 _start               97150000 auipc a1,0x1                      a1 <- 0000000000011000                                                # a.s:3: _start: la a1, word
           2 0000000000010004 _start+0x4           93850500 mv a1,a1                          a1 <- 0000000000011000
           3 0000000000010008 _start+0x8           afa20510 lr.w t0,(a1)                      t0 <- 0000000000000005 5      [0000000000011000]                      # a.s:4: lr.w t0, (a1)
           4 000000000001000c _start+0xc           2fa35518 sc.w t1,t0,(a1)                   t1 <- 0000000000000000        [0000000000011000] <- 00000005          # a.s:5: sc.w t1, t0, (a1)
           5 0000000000010010 _start+0x10          2fa35518 sc.w t1,t0,(a1)                   t1 <- 0000000000000001 1                                              # a.s:6: sc.w t1, t0, (a1)
           6 0000000000010014 _start+0x14          2fa05518 sc.w zero,t0,(a1)                                                                                       # a.s:7: sc.w zero, t0, (a1)
           7 0000000000010018 _start+0x18          13050000 li a0,0                           a0 <- 0000000000000000                                                # a.s:8: li a0, 0
           8 000000000001001c _start+0x1c          9308d005 li a7,93                          a7 <- 000000000000005d 93                                             # a.s:9: li a7, 93
           9 0000000000010020 _start+0x20          73000000 ecall                                                                                                   # a.s:10: ecall
