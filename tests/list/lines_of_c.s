# What `gcc -g` writes beside code is taken with -g, and each line of the source keeps its number. The columns are those of GNU as -al, but for addresses and the bytes of what is not loaded.
# rv: list -g a.s
# out is: wanted.txt
# rv: list a.s
# fault: a.s:5: E9 UnsupportedHere
#--- a.s
.file 1 "/demo/a.c"
.globl _start
.type _start, @function
_start:
.loc 1 3 5
    li a0, 7
.loc 1 4 1
    li a1, 300; .loc 1 4 9
    ret
.section .debug_info,"",@progbits
    .uleb128 300
    .8byte _start
#--- wanted.txt
a.s:

   1                	.file 1 "/demo/a.c"
   2                	.globl _start
   3                	.type _start, @function
   4                	_start:
   5                	.loc 1 3 5
   6 10000 1D45     	    li a0, 7
   7                	.loc 1 4 1
   8 10002 9305C012 	    li a1, 300; .loc 1 4 9
   9 10006 8280     	    ret
  10                	.section .debug_info,"",@progbits
  11                	    .uleb128 300
  12                	    .8byte _start
