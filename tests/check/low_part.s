# The low part of a distance without its high part.
# rv: check a.s
# status: 1
# errors:
# out is: wanted
#--- a.s
.globl _start
_start: nop
addi a0, a0, %pcrel_lo(_start)
#--- wanted
L3 DanglingPcrel
  a.s:3:
    addi a0, a0, %pcrel_lo(_start)
                  ^^^^^^^^
  %pcrel_lo names a label at which there is no %pcrel_hi
1 fault
