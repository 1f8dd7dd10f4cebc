# An executable is no object, and an object no executable (docs/manual/faults.md, "Files").
# rv: build -o exe exit7.s
# status: 0
# rv: ld -o other exe
# fault: exe: F14 NotObject
# rv: as -o exit7.o exit7.s
# status: 0
# rv: run exit7.o
# fault: exit7.o: F11 NotExecutable
#--- exit7.s
.option norvc
.globl _start
_start: li a0, 7
li a7, 93
ecall
