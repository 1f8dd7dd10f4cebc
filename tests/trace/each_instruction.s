# A line for each instruction: its number, address, symbol, bytes in the order of memory, text, what it wrote and where
# it loaded or stored, and where it begins a line of the source that line. Bytes and texts are those of GNU as and
# objdump, but for blanks and targets, values those of the ISA.
# rv: trace -o came a.s
# out:
# errors:
# same: came wanted
# rv: trace a.s
# errors is: wanted
# rv: trace --from 4 --count 2 a.s
# errors is: some
# rv: trace --from 9 a.s
# errors:
# rv: trace --count 0 a.s
# errors:
# rv: trace --limit 4 a.s
# status: 125
# errors is: stopped
# rv: build -o exe --map map a.s
# rv: trace --map map exe
# errors is: mapped
# rv: trace exe
# errors is: bare
#--- a.s
.option norvc
.globl _start, f
_start: li a0, 0
  addi sp, sp, -16
  call f
  ld a1, 8(sp)
  li a7, 93
  ecall
f: sd ra, 8(sp)
  ret
#--- wanted
           1 0000000000010000 _start               13050000 li a0,0                           a0 <- 0000000000000000                                                # a.s:3: _start: li a0, 0
           2 0000000000010004 _start+0x4           130101ff add sp,sp,-16                     sp <- 000000003ffffff0                                                # a.s:4: addi sp, sp, -16
           3 0000000000010008 _start+0x8           ef000001 jal 0x10018                       ra <- 000000000001000c                                                # a.s:5: call f
           4 0000000000010018 f                    23341100 sd ra,8(sp)                       [000000003ffffff8] <- 000000000001000c                                # a.s:9: f: sd ra, 8(sp)
           5 000000000001001c f+0x4                67800000 ret                                                                                                     # a.s:10: ret
           6 000000000001000c _start+0xc           83358100 ld a1,8(sp)                       a1 <- 000000000001000c        [000000003ffffff8]                      # a.s:6: ld a1, 8(sp)
           7 0000000000010010 _start+0x10          9308d005 li a7,93                          a7 <- 000000000000005d 93                                             # a.s:7: li a7, 93
           8 0000000000010014 _start+0x14          73000000 ecall                                                                                                   # a.s:8: ecall
#--- some
           4 0000000000010018 f                    23341100 sd ra,8(sp)                       [000000003ffffff8] <- 000000000001000c                                # a.s:9: f: sd ra, 8(sp)
           5 000000000001001c f+0x4                67800000 ret                                                                                                     # a.s:10: ret
#--- stopped
           1 0000000000010000 _start               13050000 li a0,0                           a0 <- 0000000000000000                                                # a.s:3: _start: li a0, 0
           2 0000000000010004 _start+0x4           130101ff add sp,sp,-16                     sp <- 000000003ffffff0                                                # a.s:4: addi sp, sp, -16
           3 0000000000010008 _start+0x8           ef000001 jal 0x10018                       ra <- 000000000001000c                                                # a.s:5: call f
           4 0000000000010018 f                    23341100 sd ra,8(sp)                       [000000003ffffff8] <- 000000000001000c                                # a.s:9: f: sd ra, 8(sp)
rv: Limit
#--- mapped
           1 0000000000010000 _start               13050000 li a0,0                           a0 <- 0000000000000000                                                # 1:3
           2 0000000000010004 _start+0x4           130101ff add sp,sp,-16                     sp <- 000000003ffffff0                                                # 1:4
           3 0000000000010008 _start+0x8           ef000001 jal 0x10018                       ra <- 000000000001000c                                                # 1:5
           4 0000000000010018 f                    23341100 sd ra,8(sp)                       [000000003ffffff8] <- 000000000001000c                                # 1:9
           5 000000000001001c f+0x4                67800000 ret                                                                                                     # 1:10
           6 000000000001000c _start+0xc           83358100 ld a1,8(sp)                       a1 <- 000000000001000c        [000000003ffffff8]                      # 1:6
           7 0000000000010010 _start+0x10          9308d005 li a7,93                          a7 <- 000000000000005d 93                                             # 1:7
           8 0000000000010014 _start+0x14          73000000 ecall                                                                                                   # 1:8
#--- bare
           1 0000000000010000                      13050000 li a0,0                           a0 <- 0000000000000000
           2 0000000000010004                      130101ff add sp,sp,-16                     sp <- 000000003ffffff0
           3 0000000000010008                      ef000001 jal 0x10018                       ra <- 000000000001000c
           4 0000000000010018                      23341100 sd ra,8(sp)                       [000000003ffffff8] <- 000000000001000c
           5 000000000001001c                      67800000 ret
           6 000000000001000c                      83358100 ld a1,8(sp)                       a1 <- 000000000001000c        [000000003ffffff8]
           7 0000000000010010                      9308d005 li a7,93                          a7 <- 000000000000005d 93
           8 0000000000010014                      73000000 ecall
