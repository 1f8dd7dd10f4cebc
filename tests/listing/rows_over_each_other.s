# Rows over the same bytes, whole and cut, and from each parcel on: also from the middle of a word.
# The executable is made by hand: its header, its program header, and the code from 10000h on. GNU objdump says what
# stands at 10004h, where it begins there.
# rv: objdump --map map exe
# out is: listing
# errors:
#--- map
rvmap 1
text 10000 1000a
rodata 11000 11000
data 11000 11000
bss 11000 11000
entry 10000
row 1 1 1 10000 10 3
row 1 2 2 10000 10 3
row 1 3 3 10000 8 3
row 1 4 4 10002 8 2
row 1 5 5 10004 6 2
row 1 6 6 10006 4 1
row 1 7 7 10006 2 1
#--- listing
@ 1 1 1
10000: addi zero,zero,0
10002: addi a7,zero,93
10006: ecall
@ 1 2 2
10000: addi zero,zero,0
10002: addi a7,zero,93
10006: ecall
@ 1 3 3
10000: addi zero,zero,0
10002: addi a7,zero,93
10006: unknown
@ 1 4 4
10002: addi a7,zero,93
10006: ecall
@ 1 5 5
10004: addi a2,sp,708
10006: ecall
@ 1 6 6
10006: ecall
@ 1 7 7
10006: unknown
#--- exe hex
7f454c460201010000000000000000000200f30001000000000001000000000040000000000000000000000000000000
010000004000380001000000000000000100000001000000780000000000000000000100000000000000010000000000
0a000000000000000a000000000000000010000000000000
01009308d00573000000
