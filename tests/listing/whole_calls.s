# The same calls with all their bytes.
# rv: build -o e --map m --no-relax a.s
# rv: objdump --map m e
# out: @ 1 2 3\n10000: auipc ra,0x0\n10004: jalr ra,32(ra)\n@ 1 2 4\n10008: auipc ra,0x0\n1000c: jalr ra,24(ra)\n@ 1 2 5\n10010: auipc ra,0x0\n10014: jalr ra,16(ra)\n@ 1 2 6\n10018: addi a7,zero,93\n@ 1 2 7\n1001c: ecall\n@ 1 3 9\n10020: jalr zero,0(ra)\n
# errors:
#--- a.s
.globl _start
_start: call f; call f; call f; li a7, 93; ecall
f: ret
