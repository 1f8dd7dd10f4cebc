# Each line with its address and its bytes: several statements on a line, paddings, long data, variables that begin as zeros. The columns and the bytes are those of GNU as -al, whose addresses are offsets in sections; those here, the bytes of what names addresses and the padding after code of another size are by hand.
# rv: list a.s
# out is: wanted.txt
#--- a.s
# A program, its data and its paddings.
.globl _start
.equ status, 93
_start: li a0, 0x123456789
    li a7, status; ecall

    .balign 8
loop:
    addi a0, a0, -1; bnez a0, loop
    ret

.section .rodata
text: .asciz "a string of more than twenty bytes"
    .byte 1
    .balign 4
    .word 1, 2, 3
.data
    .dword text
    .half 0x1234
.bss
    .balign 8
room: .zero 100
last: .zero 1
#--- wanted.txt
a.s:

   1                	# A program, its data and its paddings.
   2                	.globl _start
   3                	.equ status, 93
   4 10000 37250900 	_start: li a0, 0x123456789
   4       1B05B5A2
   4       36051305
   4       9578
   5 1000e 9308D005 	    li a7, status; ecall
   5       73000000
   6                	
   7 10016 0100     	    .balign 8
   8                	loop:
   9 10018 7D157DFD 	    addi a0, a0, -1; bnez a0, loop
  10 1001c 8280     	    ret
  11                	
  12                	.section .rodata
  13 11000 61207374 	text: .asciz "a string of more than twenty bytes"
  13       72696E67
  13       206F6620
  13       6D6F7265
  13       20746861
  14 11023 01       	    .byte 1
  15                	    .balign 4
  16 11024 01000000 	    .word 1, 2, 3
  16       02000000
  16       03000000
  17                	.data
  18 12000 00100100 	    .dword text
  18       00000000
  19 12008 3412     	    .half 0x1234
  20                	.bss
  21                	    .balign 8
  22 12010 00000000 	room: .zero 100
  22       00000000
  22       00000000
  22       00000000
  22       00000000
  23 12074 00       	last: .zero 1
