# Parcels that shift and that add to sp, by GNU objdump 2.40 -M no-aliases.
# rv: build -o exe a.s
# rv: objdump --raw exe
# out is: raw.s
# rv: build -o again raw.s
# same: exe again
#--- a.s
.globl _start
_start: c.addi4spn s1, sp, 8
c.addi4spn a5, sp, 1020
c.slli a0, 1
c.slli t6, 63
c.srli s0, 1
c.srai a5, 63
li a7, 93
ecall
#--- raw.s
.option norvc
.option norelax
.globl _start
_start:
c.addi4spn s1,sp,8
c.addi4spn a5,sp,1020
c.slli a0,1
c.slli t6,63
c.srli s0,1
c.srai a5,63
addi a7,zero,93
ecall
