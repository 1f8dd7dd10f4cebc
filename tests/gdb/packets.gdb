# What the protocol asks of single packets, which gdb sends as they are.
#--- prog.s
.option norvc
.globl _start
_start: lui s0, 0x11
li t0, 5
sd t0, 0(s0)
nop
li a0, 0
li a7, 93
ecall
.data
.zero 16
#--- session
(gdb) maintenance packet Z0,10008,4
sending: Z0,10008,4
received: "OK"
(gdb) maintenance packet Z0,10008,4
sending: Z0,10008,4
received: "OK"
(gdb) maintenance packet z0,10008,4
sending: z0,10008,4
received: "OK"
(gdb) maintenance packet Z1,1000c,4
sending: Z1,1000c,4
received: "OK"
(gdb) maintenance packet vCont;c
sending: vCont;c
received: "T05thread:1;hwbreak:;"
(gdb) maintenance packet bs
sending: bs
received: "T05thread:1;"
(gdb) maintenance packet qSupported:xmlRegisters=i386
sending: qSupported:xmlRegisters=i386
...
(gdb) maintenance packet c
sending: c
received: "T05thread:1;"
(gdb) maintenance packet c10020
sending: c10020
received: ""
(gdb) maintenance packet s10020
sending: s10020
received: ""
(gdb) maintenance packet p20
sending: p20
received: "0c00010000000000"
(gdb) maintenance packet T1
sending: T1
received: "OK"
(gdb) maintenance packet T2
sending: T2
received: "E01"
(gdb) maintenance packet Hg7
sending: Hg7
received: "E01"
(gdb) maintenance packet Hc-1
sending: Hc-1
received: "OK"
(gdb) maintenance packet P0=0500000000000000
sending: P0=0500000000000000
received: "OK"
(gdb) maintenance packet p0
sending: p0
received: "0000000000000000"
(gdb) monitor stats
3 instructions from the start, limit 1000000000000
