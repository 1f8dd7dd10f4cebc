# Two sources: each below its name, by the addresses of the program that they become together. By hand.
# rv: list a.s b.s
# out is: wanted.txt
#--- a.s
.globl _start
_start:
	call f
	li a7, 93
	ecall
.data
.dword f
#--- b.s
.globl f
.text
f: li a1, 7
	ret
#--- wanted.txt
a.s:

   1                	.globl _start
   2                	_start:
   3 10000 EF00C000 		call f
   4 10004 9308D005 		li a7, 93
   5 10008 73000000 		ecall
   6                	.data
   7 11000 0C000100 	.dword f
   7       00000000

b.s:

   1                	.globl f
   2                	.text
   3 1000c 9D45     	f: li a1, 7
   4 1000e 8280     		ret
