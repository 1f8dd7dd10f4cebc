# Sections without `a` of objects stand behind an executable of -g by their names, in the order of the objects and each at its
# alignment, with the link's addresses. The bytes are those of GNU as and ld 2.40 with -Ttext=0x10000.
# rv: as -g -o a.o linked_unloaded.s
# rv: as -g -o b.o other.s
# rv: ld -g -o linked a.o b.o
# section .info: 000001000000000008000100000000000600000002000405040000000400000020000000000000000800010000000000
# section .more-info: 01000000000000000400000009
# section .others.1: 6f7468657200
# alignment .info: 8
# rv: build -g -o built linked_unloaded.s other.s
# section .info: 000001000000000008000100000000000600000002000405040000000400000020000000000000000800010000000000
# section .more-info: 01000000000000000400000009
# section .others.1: 6f7468657200
# rv: ld -o plain a.o b.o
# rv: build -o without linked_unloaded.s other.s
# same: plain without
#--- linked_unloaded.s
.globl _start
_start: call other
.Lmid: addi a0, a0, 2
.Lend: ret
.section .info, ""
.Linfo: .8byte _start, other
.4byte .Lend - _start
.2byte .Lend - .Lmid
.byte .Lmid - _start, 5
.4byte .Linfo + 4, .Lmore
.section .more-info, "w"
.4byte 1
.Lmore: .4byte .Linfo, .Lmore - .Linfo
#--- other.s
.globl other
other: ret
.section .more-info, "w"
.byte 9
.section .info, ""
.balign 8
.Lhere: .8byte .Lhere, other
.section .others.1, "", @progbits
.string "other"
