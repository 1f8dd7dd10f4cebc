# Several sources are built together and run: a driver and what it calls, each with a name of its own that is local.
# rv: run a.s b.s
# out: hi
# errors:
# rv: trace -o came a.s b.s
# same: came wanted
# rv: stats --lines a.s b.s
# errors has:   f                                     1
# errors has: a.s:5 1
# errors has: b.s:6 0
# rv: stats --lcov info a.s b.s
# same: info tracefile
# rv: run --report a.s c.s
# status: 125
# out:
# errors has:   0000000000010010 f+0x4                lw a0,4(t0)
# errors has:   c.s:4: lw a0, 4(t0)
# rv: build -o exe --map map a.s b.s
# rv: run exe
# out: hi
# rv: stats --lcov info --map map exe a.s b.s
# same: info tracefile
# rv: trace -o came --map map exe a.s b.s
# same: came wanted
# rv: stats --map map exe b.s a.s
# status: 1
# error: rv: b.s: not a source of map
# rv: stats --map map exe a.s d.s
# status: 1
# error: rv: d.s:2: E6 UnknownMnemonic
# rv: run --report --map map exe missing.s
# status: 1
# error: rv: missing.s: cannot read
# rv: run a.s
# status: 1
# error: rv: L5 Undefined f
# rv: run a.s b.s exe
# status: 1
# errors: rv: exe: not a source, as each of several files has to be\n
# rv: trace exe a.s
# status: 1
# errors: rv: exe: not a source, as each of several files has to be\n
# rv: run exe missing.s
# status: 1
# errors: rv: missing.s: cannot read\n
# rv: run a.s a.s
# status: 1
# error: rv: L6 Duplicate _start
# rv: stats b.s d.s
# status: 1
# error: rv: d.s:2: E6 UnknownMnemonic
#--- a.s
.option norvc
.globl _start
_start: call f
here: li a7, 93
  ecall
#--- b.s
.option norvc
.globl f
f: li a0, 1; la a1, here; li a2, 2; li a7, 64
  ecall
  addi a0, a0, -2; ret
  nop
.section .rodata
here: .ascii "hi"
#--- c.s
.option norvc
.globl f
f: li t0, 8
  lw a0, 4(t0)
#--- d.s
.globl _start
_start: frob
#--- wanted
           1 0000000000010000 _start               ef00c000 jal 0x1000c                       ra <- 0000000000010004                                                # a.s:3: _start: call f
           2 000000000001000c f                    13051000 li a0,1                           a0 <- 0000000000000001 1                                              # b.s:3: f: li a0, 1; la a1, here; li a2, 2; li a7, 64
           3 0000000000010010 f+0x4                97150000 auipc a1,0x1                      a1 <- 0000000000011010
           4 0000000000010014 f+0x8                938505ff add a1,a1,-16                     a1 <- 0000000000011000
           5 0000000000010018 f+0xc                13062000 li a2,2                           a2 <- 0000000000000002 2
           6 000000000001001c f+0x10               93080004 li a7,64                          a7 <- 0000000000000040 64
           7 0000000000010020 f+0x14               73000000 ecall                             a0 <- 0000000000000002 2                                              # b.s:4: ecall
           8 0000000000010024 f+0x18               1305e5ff add a0,a0,-2                      a0 <- 0000000000000000                                                # b.s:5: addi a0, a0, -2; ret
           9 0000000000010028 f+0x1c               67800000 ret
          10 0000000000010004 here                 9308d005 li a7,93                          a7 <- 000000000000005d 93                                             # a.s:4: here: li a7, 93
          11 0000000000010008 here+0x4             73000000 ecall                                                                                                   # a.s:5: ecall
#--- tracefile
TN:
SF:a.s
DA:3,1
DA:4,1
DA:5,1
LF:3
LH:3
end_of_record
SF:b.s
DA:3,1
DA:4,1
DA:5,1
DA:6,0
LF:4
LH:3
end_of_record
