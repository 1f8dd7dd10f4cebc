# One of some hundred random programs, with the most different forms. GNU as 2.40, -march=rv64ima -mno-relax, and ld
# 2.40, by a script that lays the sections out in the order of regions, write the same bytes at the same addresses.
# text: 935f8141 2fa1ff05 03b08008
# rodata at 11000: 02100100 00000000 00100100 00000000 ffffffff ffffffff 00000000 0000003d
# rodata at 11020: af49bd00 00000000 00000000 00000000 00000000 00000000 00000004 00010000
# rodata at 11040: 00000005 20010000 00000000 2f2f7e0a 417a2f2f 0a0d0d00 01001e00 00000c00
# rodata at 11060: 01000000 0000d5ff 00000000 00002100 00002600 000080f0 ffff0303 00000000
# data:
# size: 8320
# map: text 10000 1000c
# map: rodata 11000 11080
# map: data 12000 12000
# map: bss 12000 12000
# map: entry 10004
# map: global _start 10004
.option norvc
srai x31, sp, (4118390104) & 63
.globl _start
_start:
.text
amoadd.w.aq sp, t6, (t6)
ld zero, 136(ra)
.section .rodata.str,"a"
1:
.dword 1b + 2,1b,_start - _start - 1
.zero (047) & 15
.dword +3175722813
.zero (12) & 15
.quad ~(38) % 3,_start,5 + _end
.space 1
.ascii "//~\n\x41z", "//\n\r"
.4byte 1 + f.2,'+' * -3941519164/2 & +027+0x5+1 + 2
.quad .Lf3, _start - 47
0:
.word 0x21, 38, f_1$x - __bss_start
.byte _start - _start + 3,_start - _start + 3,f_1$x - f_1$x
.align 5
.section .rodata.str
f_1$x:
.section .text
f.2:
.text
.Lf3:
