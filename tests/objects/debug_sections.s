# What debug sections refer to has in objects of `rv as -g` the relocations of GNU as 2.40: their offsets, kinds, symbols
# and addends are its own, by `readelf -r`. The sections have no flag `a`, no rows, and what is linked is the same.
# rv: as -g -o a.o debug_sections.s
# section .debug_info: 00000000000000000000000000000000000000000000000000000000050000000000000000000000000000000000810100000000
# section .debug_abbrev: 0102
# section .debug_str: 78006e616d6500
# alignment .debug_info: 1
# rv: elf a.o
# out has:   [ 3] .debug_info       PROGBITS        0000000000000000 000058 000034 00      0   0  1
# out has:   [ 4] .debug_abbrev     PROGBITS        0000000000000000 000090 000002 00      0   0  1
# out has:   [ 5] .debug_str        PROGBITS        0000000000000000 000098 000007 00      0   0  1
# out has: 0000000000000000  0000000500000001 R_RISCV_32             0000000000000000 .Labbrev + 0
# out has: 0000000000000004  0000000600000001 R_RISCV_32             0000000000000002 .Lname + 2
# out has: 0000000000000008  0000000800000002 R_RISCV_64             0000000000000000 _start + 0
# out has: 0000000000000010  0000000200000024 R_RISCV_ADD64          0000000000000008 .Lend + 0
# out has: 0000000000000010  0000000800000028 R_RISCV_SUB64          0000000000000000 _start + 0
# out has: 0000000000000018  0000000100000023 R_RISCV_ADD32          0000000000000004 .Lmid + 0
# out has: 0000000000000018  0000000800000027 R_RISCV_SUB32          0000000000000000 _start + 0
# out has: 000000000000001e  0000000300000002 R_RISCV_64             0000000000000000 word + 0
# out has: 0000000000000026  0000000900000002 R_RISCV_64             0000000000000000 other + 0
# out has: 0000000000000030  0000000400000001 R_RISCV_32             0000000000000000 .Linfo + 0
# rv: as -o b.o other.s
# rv: ld -o with a.o b.o
# rv: as -o a.o debug_sections.s
# rv: ld -o without a.o b.o
# same: with without
#--- debug_sections.s
.option norvc
.globl _start
_start: addi a0, a0, 1
.Lmid: addi a0, a0, 2
.Lend: ret
.data
word: .word 7
.section .debug_info, "", @progbits
.Linfo: .4byte .Labbrev
.4byte .Lname + 2
.8byte _start
.8byte .Lend - _start
.4byte .Lmid - _start
.2byte 5
.8byte word
.8byte other
.byte 0x81, 1
.section .debug_abbrev
.Labbrev: .byte 1, 2
.section .debug_str, "MS", @progbits, 1
.string "x"
.Lname: .string "name"
.section .debug_info
.4byte .Linfo
.text
tail: nop
#--- other.s
.globl other
.data
other: .word 1
