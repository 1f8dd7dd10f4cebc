# A console of over 64 MiB ends a case of `rv test` and a call of `rv batch`, and no other.
# rv: test long.s short.s
# status: 1
# out: long.s: the console has more than 64 MiB\n1 passed, 1 failed\n
# rv: batch
# input: {"sources": [{"file": "long.s"}]}\n{"sources": [{"file": "short.s"}]}\n
# out is: answers
#--- long.s
# exit: 0
.globl _start
_start:
  li s0, 65
1: li a0, 1
  la a1, bytes
  li a2, 0x100000
  li a7, 64
  ecall
  addi s0, s0, -1
  bnez s0, 1b
  li a0, 0
  li a7, 93
  ecall
.bss
bytes: .space 0x100000
#--- short.s
# exit: 3
.globl _start
_start: li a0, 3
  li a7, 93
  ecall
#--- answers
{"error":"the console has more than 64 MiB","status":1}
{"console":"","end":{"name":"Exited","status":3},"status":3}
