# Three calls that can be short.
# rv: build -o e --map m a.s
# rv: objdump --map m e
# out: @ 1 2 3\n10000: jal ra,0x10014\n@ 1 2 4\n10004: jal ra,0x10014\n@ 1 2 5\n10008: jal ra,0x10014\n@ 1 2 6\n1000c: addi a7,zero,93\n@ 1 2 7\n10010: ecall\n@ 1 3 9\n10014: jalr zero,0(ra)\n
# errors:
#--- a.s
.globl _start
_start: call f; call f; call f; li a7, 93; ecall
f: ret
