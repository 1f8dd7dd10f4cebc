# Columns begin at the same place in all lines: an atomic operation with a register, an address and what is stored has the
# most effects, and a symbol without room is shown without its middle.
# rv: trace a.s
# errors is: wanted
#--- a.s
.option norvc
.globl _start
_start: la a2, word
a_long_name_of_a_place: li s11, -2
  amominu.d.aqrl s10, s11, (a2)
  amoadd.w zero, s11, (a2)
  li a0, 0
  li a7, 93
  ecall
.data
.balign 8
word: .dword 5
#--- wanted
           1 0000000000010000 _start               17160000 auipc a2,0x1                      a2 <- 0000000000011000                                                # a.s:3: _start: la a2, word
           2 0000000000010004 _start+0x4           13060600 mv a2,a2                          a2 <- 0000000000011000
           3 0000000000010008 a_long_n..of_a_place 930de0ff li s11,-2                         s11 <- fffffffffffffffe -2                                            # a.s:4: a_long_name_of_a_place: li s11, -2
           4 000000000001000c a_long_n.._place+0x4 2f3db6c7 amominu.d.aqrl s10,s11,(a2)       s10 <- 0000000000000005 5      [0000000000011000] <- 0000000000000005 # a.s:5: amominu.d.aqrl s10, s11, (a2)
           5 0000000000010010 a_long_n.._place+0x8 2f20b601 amoadd.w zero,s11,(a2)            [0000000000011000] <- 00000003                                        # a.s:6: amoadd.w zero, s11, (a2)
           6 0000000000010014 a_long_n.._place+0xc 13050000 li a0,0                           a0 <- 0000000000000000                                                # a.s:7: li a0, 0
           7 0000000000010018 a_long_n..place+0x10 9308d005 li a7,93                          a7 <- 000000000000005d 93                                             # a.s:8: li a7, 93
           8 000000000001001c a_long_n..place+0x14 73000000 ecall                                                                                                   # a.s:9: ecall
