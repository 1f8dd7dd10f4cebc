# One of some hundred random programs, with the most different forms. GNU as 2.40, -march=rv64ima -mno-relax, and ld
# 2.40, by a script that lays the sections out in the order of regions, write the same bytes at the same addresses.
# text: 833f0400 9372c069 8310f000
# rodata: 2b00e4ff 3b7e2f2a 3000e28e f4a60000 0000133e 9c28ba6a 686b
# data: 82ffffff b0ffffff 00000000 00000000 00000000 00000000 00
# size: 12313
# map: text 10000 1000c
# map: rodata 11000 1101a
# map: data 12000 12019
# map: bss 12019 1202f
# map: entry 10008
# map: global _start 10008
.option norvc
.section .sdata
.4byte -'~', ~+1941 / 24
.zero 17
.section code,"ax",@progbits
ld t6, (x8)
andi t0, zero, ((((0xe82) + 032))) & 2047
.globl _start
_start:
lh ra, ((15)) & 1023(zero)
.section .rodata.str,"a"
l1:
.half '+',(~2764>>10-0x305b75db62370d5d%58)
.ascii ";", "~/*0\0"
.dword 2801045218,'Z'+(+031+0x6b686aba289c3da0)
.set c2, 0x134b|~2841%41
.section .bss
.zero (0xf7452d68) & 15
.zero 12
.skip 2
.equ c2, 'A'+1947 ^ 0x12-c2-~c2
.section .data.x,"aw"
