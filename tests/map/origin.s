# The map, the check, the listing and the run of a program at 80000000h, where boards have their RAM (docs/manual/source.md).
# rv: map --origin 0x80000000 a.s
# status: 0
# out has: text 80000000 80000028
# out has: rodata 80001000 80001008
# out has: data 80002000 80002004
# out has: bss 80002004 80002008
# out has: entry 80000000
# rv: check --origin 0x80000000 a.s
# status: 0
# rv: list --origin 0x80000000 a.s
# status: 0
# rv: build -o exe --map made --origin 0x80000000 a.s
# status: 0
# rv: objdump --map made exe
# status: 0
# rv: run exe
# status: 7
# rv: run --report exe --map made
# status: 7
#--- a.s
.option norvc
.globl _start
_start: la a1, word
lw a0, 0(a1)
sw a0, 4(a1)
lw a0, 4(a1)
addi sp, sp, -16
sd a0, 0(sp)
ld a0, 0(sp)
li a7, 93
ecall
.section .rodata
.dword word
.data
word: .word 7
.bss
.zero 4
