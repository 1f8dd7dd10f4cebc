# Symbols of a source are its labels too, but not numeric ones and those of GNU's local names.
# rv: trace -o came a.s
# same: came wanted
# rv: stats a.s
# errors has:   work                                  1
#--- a.s
.option norvc
.globl _start
_start: call work
.Lone: li a0, 0
1: li a7, 93
  ecall
end:
.data
v: .dword 7
.text
work: ret
#--- wanted
           1 0000000000010000 _start               ef000001 jal 0x10010                       ra <- 0000000000010004                                                # a.s:3: _start: call work
           2 0000000000010010 work                 67800000 ret                                                                                                     # a.s:11: work: ret
           3 0000000000010004 _start+0x4           13050000 li a0,0                           a0 <- 0000000000000000                                                # a.s:4: .Lone: li a0, 0
           4 0000000000010008 _start+0x8           9308d005 li a7,93                          a7 <- 000000000000005d 93                                             # a.s:5: 1: li a7, 93
           5 000000000001000c _start+0xc           73000000 ecall                                                                                                   # a.s:6: ecall
