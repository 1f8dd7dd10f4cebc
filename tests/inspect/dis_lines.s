# The lines of source stand in front of their code where they change, and behind each name, as `objdump -d -l` has those of C.
# The rows are those that `.loc` says (DWARF 5, 6.2); of an object, whose addresses are open, no line is known.
# rv: as -g -o a.o a.s
# rv: ld -g -o exe --map map a.o
# rv: dis --lines exe
# out is: lines.txt
# rv: dis --lines a.o
# out has: 0000000000000000 <_start>:
# out has:    0:	451d                	li	a0,7
# rv: build -o plain --map map b.s
# rv: dis --lines plain --map map
# out has:    10000:	4505                	li	a0,1
#--- a.s
.file 1 "/demo/a.c"
.globl _start
_start:
.loc 1 3 5
    li a0, 7
    nop
.loc 1 4 1
    li a1, 300
    call twice
.loc 1 4 9
    li a7, 93
    ecall
twice:
.loc 1 4 9
    ret
.section .debug_info,"",@progbits
.byte 0
#--- b.s
.globl _start
_start:
    li a0, 1
    ret
#--- lines.txt

exe:     file format elf64-littleriscv


Disassembly of section .text:

0000000000010000 <_start>:
/demo/a.c:3
   10000:	451d                	li	a0,7
   10002:	0001                	nop
/demo/a.c:4
   10004:	12c00593          	li	a1,300
   10008:	00c000ef          	jal	10014 <twice>
   1000c:	05d00893          	li	a7,93
   10010:	00000073          	ecall

0000000000010014 <twice>:
/demo/a.c:4
   10014:	8082                	ret
