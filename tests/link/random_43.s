# One of some hundred random programs, with the most different forms. GNU as 2.40, -march=rv64ima -mno-relax, and ld
# 2.40, by a script that lays the sections out in the order of regions, write the same bytes at the same addresses.
# text: 81703305 b0401365 15001305 050237f5 ffff1b05 f57f0f00 100303b4 87ffb75f 34129b8f 8f673b05 55002330 55003b05 55408322 0500
# rodata: 00000d00 01000520 0100
# data: 0000
# size: 12290
# map: text 10000 10036
# map: rodata 11000 1100a
# map: data 12000 12002
# map: bss 12002 12002
# map: entry 10002
# map: global _start 10002
# map: global l1 10002
# map: global l2 10002
# map: global l5 10026
# map: global l7 1000a
.globl _start
li ra, -0x20000
.option push
_start:
l1:
.globl l1
l2:
.globl l2
.option rvc
l3:
neg a0, a1
ori a0, a0, 1
.section .text.b,"ax"
l4:
l5:
.globl l5
l6:
.option norvc
addw a0, a0, t0
sd t0, 0(a0)
subw a0, a0, t0
lw t0, 0(a0)
.text
l7:
.globl l7
l8:
l9:
addi a0, a0, 32
li a0, 0xfffffffffffff7ff
l10:
fence rw, w
ld s0, -8(a5)
li t6, 0x12345678
.section .rodata
.half l7 - l8
.word l9 + 3
.word _end + 3
d11:
.data
.half l8 - l9
d12:
