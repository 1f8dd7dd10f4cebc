# A plain trace, read from the source by hand: neither numbers, addresses nor names of files. So a program at another
# address has the same one.
# rv: trace --plain -o came a.s
# same: came wanted
# rv: build -o low --map low.map a.s
# rv: build -o high --map high.map --text-start 0x400000 a.s
# rv: trace --plain -o low.trace --map low.map low
# same: low.trace without
# rv: trace --plain -o high.trace --map high.map high
# same: high.trace without
#--- a.s
.globl _start
.globl f
.globl words
_start: la sp, stack
  li s0, 2
  la s1, words
1: ld t0, 0(s1)
  sd t0, 8(s1)
  addi s1, s1, 8
  addi s0, s0, -1
  bnez s0, 1b
  call f
  li a7, 93
  ecall
f: addi sp, sp, -16
  sd ra, 8(sp)
  sub a1, sp, s1
  ld ra, 8(sp)
  ret
.data
words: .dword 5, 6, 7
.bss
.space 64
stack:
#--- wanted
_start               auipc sp                    sp <- part                                      # _start: la sp, stack
_start               addi sp,sp                  sp <- .bss+0x40
_start               addi s0,zero                s0 <- 0000000000000002                          # li s0, 2
_start               auipc s1                    s1 <- part                                      # la s1, words
_start               addi s1,s1                  s1 <- words
_start               ld t0,s1                    t0 <- 0000000000000005 [words]                  # 1: ld t0, 0(s1)
_start               sd t0,s1                    [words+0x8] <- 0000000000000005                 # sd t0, 8(s1)
_start               addi s1,s1                  s1 <- words+0x8                                 # addi s1, s1, 8
_start               addi s0,s0                  s0 <- 0000000000000001                          # addi s0, s0, -1
_start               bne s0,zero                                                                 # bnez s0, 1b
_start               ld t0,s1                    t0 <- 0000000000000005 [words+0x8]              # 1: ld t0, 0(s1)
_start               sd t0,s1                    [words+0x10] <- 0000000000000005                # sd t0, 8(s1)
_start               addi s1,s1                  s1 <- words+0x10                                # addi s1, s1, 8
_start               addi s0,s0                  s0 <- 0000000000000000                          # addi s0, s0, -1
_start               bne s0,zero                                                                 # bnez s0, 1b
_start               jal ra                      ra <- _start                                    # call f
f                    addi sp,sp                  sp <- .bss+0x30                                 # f: addi sp, sp, -16
f                    sd ra,sp                    [.bss+0x38] <- _start                           # sd ra, 8(sp)
f                    sub a1,sp,s1                a1 <- 0000000000000038                          # sub a1, sp, s1
f                    ld ra,sp                    ra <- _start [.bss+0x38]                        # ld ra, 8(sp)
f                    jalr zero,ra                                                                # ret
_start               addi a7,zero                a7 <- 000000000000005d                          # li a7, 93
_start               ecall                                                                       # ecall
#--- without
_start               auipc sp                    sp <- part
_start               addi sp,sp                  sp <- .bss+0x40
_start               addi s0,zero                s0 <- 0000000000000002
_start               auipc s1                    s1 <- part
_start               addi s1,s1                  s1 <- words
_start               ld t0,s1                    t0 <- 0000000000000005 [words]
_start               sd t0,s1                    [words+0x8] <- 0000000000000005
_start               addi s1,s1                  s1 <- words+0x8
_start               addi s0,s0                  s0 <- 0000000000000001
_start               bne s0,zero
_start               ld t0,s1                    t0 <- 0000000000000005 [words+0x8]
_start               sd t0,s1                    [words+0x10] <- 0000000000000005
_start               addi s1,s1                  s1 <- words+0x10
_start               addi s0,s0                  s0 <- 0000000000000000
_start               bne s0,zero
_start               jal ra                      ra <- _start
f                    addi sp,sp                  sp <- .bss+0x30
f                    sd ra,sp                    [.bss+0x38] <- _start
f                    sub a1,sp,s1                a1 <- 0000000000000038
f                    ld ra,sp                    ra <- _start [.bss+0x38]
f                    jalr zero,ra
_start               addi a7,zero                a7 <- 000000000000005d
_start               ecall
