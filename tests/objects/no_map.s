# A link without a map, of the object of an empty source and another one.
# rv: as a.s -o a.o
# rv: as -o b.o b.s
# rv: ld b.o a.o -o l --text-start=0x20000
# out:
# errors:
# rv: run l
# exit: 7
#--- b.s
#--- a.s
.option norvc
.globl _start
_start: li a0, 7
li a7, 93
ecall
