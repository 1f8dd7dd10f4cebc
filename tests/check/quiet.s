# No warning: jumps of a table, of this source or another; what a jump to a register may reach; labels in a size or at the place
# of a name that is used; numbers of a .set, and a power of two; sp off a multiple of 16.
# rv: check a.s b.s c.s
# errors:
# out is: wanted
#--- a.s
.globl _start
.globl LIM
.set LIM, 0x40
_start: li a1, 0x40
li a2, 0x10000
la t0, t
jr t0
t: j a
j b
j c
a: nop
b: nop
c: addi sp, sp, -14
lw a0, 2(sp)
la a3, .LANCHOR0
ret
.data
.set .LANCHOR0, . + 0
.type edges, @object
.size edges, ends - edges
edges: .word 1
ends:
#--- b.s
.globl table
table: j 1f
j 2f
li a0, 1
1: nop
2: ret
#--- c.s
la a0, same
ret
.data
same: other: .word 1
#--- wanted
text 62, rodata 0, data 8, bss 0 bytes
