# A small number stands in decimal behind its value, up to 65535 on both sides of 0, which is plain as it stands. Its room
# is before the address of an access, and no line ends in it. Bytes and texts are those of GNU as and objdump, values those
# of the ISA.
# rv: trace a.s
# errors is: wanted
# rv: build -o exe a.s
# rv: trace exe
# errors is: bare
#--- a.s
.option norvc
.globl _start
_start: li a2, 5007
  li a3, -65535
  lui a4, 16
  addi a4, a4, -1
  sd a3, -8(sp)
  ld a5, -8(sp)
  li a0, 0
  li a7, 93
  ecall
#--- wanted
           1 0000000000010000 _start               37160000 lui a2,0x1                        a2 <- 0000000000001000 4096                                           # a.s:3: _start: li a2, 5007
           2 0000000000010004 _start+0x4           1b06f638 addw a2,a2,911                    a2 <- 000000000000138f 5007
           3 0000000000010008 _start+0x8           b706ffff lui a3,0xffff0                    a3 <- ffffffffffff0000                                                # a.s:4: li a3, -65535
           4 000000000001000c _start+0xc           9b861600 addw a3,a3,1                      a3 <- ffffffffffff0001 -65535
           5 0000000000010010 _start+0x10          37070100 lui a4,0x10                       a4 <- 0000000000010000                                                # a.s:5: lui a4, 16
           6 0000000000010014 _start+0x14          1307f7ff add a4,a4,-1                      a4 <- 000000000000ffff 65535                                          # a.s:6: addi a4, a4, -1
           7 0000000000010018 _start+0x18          233cd1fe sd a3,-8(sp)                      [000000003ffffff8] <- ffffffffffff0001                                # a.s:7: sd a3, -8(sp)
           8 000000000001001c _start+0x1c          833781ff ld a5,-8(sp)                      a5 <- ffffffffffff0001 -65535 [000000003ffffff8]                      # a.s:8: ld a5, -8(sp)
           9 0000000000010020 _start+0x20          13050000 li a0,0                           a0 <- 0000000000000000                                                # a.s:9: li a0, 0
          10 0000000000010024 _start+0x24          9308d005 li a7,93                          a7 <- 000000000000005d 93                                             # a.s:10: li a7, 93
          11 0000000000010028 _start+0x28          73000000 ecall                                                                                                   # a.s:11: ecall
#--- bare
           1 0000000000010000                      37160000 lui a2,0x1                        a2 <- 0000000000001000 4096
           2 0000000000010004                      1b06f638 addw a2,a2,911                    a2 <- 000000000000138f 5007
           3 0000000000010008                      b706ffff lui a3,0xffff0                    a3 <- ffffffffffff0000
           4 000000000001000c                      9b861600 addw a3,a3,1                      a3 <- ffffffffffff0001 -65535
           5 0000000000010010                      37070100 lui a4,0x10                       a4 <- 0000000000010000
           6 0000000000010014                      1307f7ff add a4,a4,-1                      a4 <- 000000000000ffff 65535
           7 0000000000010018                      233cd1fe sd a3,-8(sp)                      [000000003ffffff8] <- ffffffffffff0001
           8 000000000001001c                      833781ff ld a5,-8(sp)                      a5 <- ffffffffffff0001 -65535 [000000003ffffff8]
           9 0000000000010020                      13050000 li a0,0                           a0 <- 0000000000000000
          10 0000000000010024                      9308d005 li a7,93                          a7 <- 000000000000005d 93
          11 0000000000010028                      73000000 ecall
