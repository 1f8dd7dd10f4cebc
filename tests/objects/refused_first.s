# The count of objects comes first, then the text's start, then the files in their order, and then the link. The bad
# object is cut off after 100 bytes.
# rv: as -o exit7.o exit7.s
# rv: as -o bad.o exit7.s
# cut: bad.o 100
# rv: ld --text-start 4097 -o exe {{1025 * bad.o }}
# fault: L10 TooManyFiles
# rv: ld --text-start 4097 -o exe bad.o
# fault: L9 BadTextStart
# rv: ld -o exe exit7.o exit7.o none.o bad.o
# fault: none.o: F1 Truncated
#--- exit7.s
.option norvc
.globl _start
_start: li a0, 7
li a7, 93
ecall
#--- none.o hex
6e6f6e65
