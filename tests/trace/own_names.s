# An executable has the names and lines of its own tables: of rv build -g those of its map and its sources, labels too,
# as readelf and nm show them, and the same by rv ld -g; without -g none. A map that the words name comes before them.
# rv: build -g -o exe --map map a.s b.s
# rv: run exe
# rv: trace --count 5 exe
# errors is: wanted
# rv: trace --until inner exe
# errors is: wanted
# rv: stats --lines --lcov lines exe
# errors has:   f                                     1
# errors has: a.s:2 1
# errors has: b.s:4 0
# errors has: never executed 1 of 8 lines
# same: lines info
# rv: run --report exe
# errors has:   ra   000000000001000e _start+0xe
# errors has:   t0   0000000000011000 table
# errors has:   a.s:6
# rv: run --report --map map exe
# errors has:   1:6
# rv: as -g -o a.o a.s
# rv: as -g -o b.o b.s
# rv: ld -g -o linked a.o b.o
# rv: trace --count 5 linked
# errors is: wanted
# rv: build -o bare a.s b.s
# rv: trace --count 1 bare
# errors is: plain
#--- a.s
.globl _start
_start: li a0, 0
  la t0, table
  call f
.Lback: li a7, 93
  ecall
.data
table: .word 1
#--- b.s
.globl f
f: beqz zero, inner
.Lnever:
  nop
inner: ret
#--- wanted
           1 0000000000010000 _start               0145     li a0,0                           a0 <- 0000000000000000                                                # a.s:2
           2 0000000000010002 _start+0x2           97120000 auipc t0,0x1                      t0 <- 0000000000011002                                                # a.s:3
           3 0000000000010006 _start+0x6           9382e2ff add t0,t0,-2                      t0 <- 0000000000011000
           4 000000000001000a _start+0xa           ef00c000 jal 0x10016                       ra <- 000000000001000e                                                # a.s:4
           5 0000000000010016 f                    63030000 beqz zero,0x1001c                                                                                       # b.s:2
#--- info
TN:
SF:a.s
DA:2,1
DA:3,1
DA:4,1
DA:5,1
DA:6,1
LF:5
LH:5
end_of_record
SF:b.s
DA:2,1
DA:4,0
DA:5,1
LF:3
LH:2
end_of_record
#--- plain
           1 0000000000010000                      0145     li a0,0                           a0 <- 0000000000000000
