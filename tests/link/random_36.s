# One of some hundred random programs, with the most different forms. GNU as 2.40, -march=rv64ima -mno-relax, and ld
# 2.40, by a script that lays the sections out in the order of regions, write the same bytes at the same addresses.
# text: 73001000 93fd70ff
# rodata:
# data at 11000: 1c010000 00000000 03000000 00000000 0500417a 090d3b41 7a092008 00000000
# data at 11020: 00000000 00000000 00000000 00000000 00000000 00000000 00000000 00000000
# data at 11040: 0d5c0a23 5cbcff00 00471001 00000000
# size: 8272
# map: text 10000 10008
# map: rodata 11000 11000
# map: data 11000 11050
# map: bss 11080 11080
# map: entry 10008
# map: global c5 c7830
# map: global _start 10008
.option norvc
ebreak
and s11, ra, -(((9)) & 2047)
l.4:
.bss
.balign 64
.data
.align 4
.dword ~20 + -(13)&0x139, 035/8
0:
.half 0x763 | 0b110&2051905904114227896 % 27&1794610784 / 57
.ascii "\x41z\t\r;", "\x41z", "\t \b"
.balign 64
.section .data.x,"aw"
.globl c5
.set c5, -(0x19) * ~0b11111111010 << 11 >> 7
.align 5
.ascii "\r", "\\\n#\\"
3:
.word _etext - 76,3b + 2
.balign 4
.section .rodata
.text
.globl _start
_start:
.section .data
f1:
.text
f_2$x:
.section .bss
.Lf3:
