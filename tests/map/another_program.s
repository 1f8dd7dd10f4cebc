# A map of another program, and one of an older build: each word that is ours refuses it and does nothing else, and
# objdump lists any rows.
# rv: build -o a --map a.map a.s
# rv: build -o b --map b.map b.s
# rv: run --report --map b.map a
# fault: b.map: not a map of a
# out:
# rv: trace --map b.map a
# fault: b.map: not a map of a
# out:
# rv: trace -o lines --map b.map a
# fault: b.map: not a map of a
# rv: stats --lines --map b.map a
# fault: b.map: not a map of a
# out:
# rv: stats --lcov a.info a --map b.map
# fault: b.map: not a map of a
# out:
# rv: dis --map b.map a
# fault: b.map: not a map of a
# out:
# rv: nm --map b.map a
# fault: b.map: not a map of a
# out:
# rv: nm --map a.map b
# fault: a.map: not a map of b
# rv: objdump --map b.map a
# status: 0
# out has: @ 1 2 3
# rv: run --report --map a.map a
# exit: 7
# out: hi\n
#--- a.s
.globl _start
_start: li a0, 1
  la a1, text
  li a2, 3
  li a7, 64
  ecall
  li a0, 7
  li a7, 93
  ecall
.rodata
text: .ascii "hi\n"
#--- b.s
.globl _start
_start: li a0, 1
  la a1, text
  li a2, 3
  li a7, 64
  ecall
  addi a0, zero, 2
  addi a0, a0, 5
  li a7, 93
  ecall
.rodata
text: .ascii "hi\n"
