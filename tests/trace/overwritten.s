# An instruction that is overwritten has its new bytes in its next line: the code's segment may be written here. Bytes and
# texts are those of GNU as and objdump, values those of the ISA.
# rv: build -o exe a.s
# patch: exe 44 07
# rv: trace exe
# status: 2
# errors is: wanted
#--- a.s
.option norvc
.globl _start
_start: la s0, place
  li s1, 2
  lw t0, 24(s0)
place: li a0, 1
  sw t0, 0(s0)
  addi s1, s1, -1
  bnez s1, place
  li a7, 93
  ecall
  li a0, 2
#--- wanted
           1 0000000000010000                      17040000 auipc s0,0x0                      s0 <- 0000000000010000
           2 0000000000010004                      13040401 add s0,s0,16                      s0 <- 0000000000010010
           3 0000000000010008                      93042000 li s1,2                           s1 <- 0000000000000002 2
           4 000000000001000c                      83228401 lw t0,24(s0)                      t0 <- 0000000000200513        [0000000000010028]
           5 0000000000010010                      13051000 li a0,1                           a0 <- 0000000000000001 1
           6 0000000000010014                      23205400 sw t0,0(s0)                       [0000000000010010] <- 00200513
           7 0000000000010018                      9384f4ff add s1,s1,-1                      s1 <- 0000000000000001 1
           8 000000000001001c                      e39a04fe bnez s1,0x10010
           9 0000000000010010                      13052000 li a0,2                           a0 <- 0000000000000002 2
          10 0000000000010014                      23205400 sw t0,0(s0)                       [0000000000010010] <- 00200513
          11 0000000000010018                      9384f4ff add s1,s1,-1                      s1 <- 0000000000000000
          12 000000000001001c                      e39a04fe bnez s1,0x10010
          13 0000000000010020                      9308d005 li a7,93                          a7 <- 000000000000005d 93
          14 0000000000010024                      73000000 ecall
