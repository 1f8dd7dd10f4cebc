# Functions with their types and sizes: gdb names them in frames within a loop's label, as with GNU as and ld. The sizes are
# those of `riscv64-unknown-elf-readelf -s` of what GNU as and ld make of this source; the call shrinks to four bytes.
# build: sum.s
#--- sum.s
# The double of the sum of three numbers.
.globl _start
.type _start, @function
_start: la   s0, values
        li   s1, 3
        li   s2, 0
next:   lw   t0, (s0)
        add  s2, s2, t0
        addi s0, s0, 4
        addi s1, s1, -1
        bnez s1, next
        call double
        mv   a0, s2
        li   a7, 93
        ecall
.size _start, .-_start

.type double, %function
double: slli s2, s2, 1
again:  ret
.size double, . - double

.data
.type values, @object
values: .word 3, 4, 5
.size values, 12
#--- session
(gdb) break 8
...
(gdb) continue

Breakpoint 1, _start () at sum.s:8
8	        add  s2, s2, t0
(gdb) backtrace
#0  _start () at sum.s:8
(gdb) info symbol $pc
_start + 16 in section .text
(gdb) delete
(gdb) break again
...
(gdb) continue

Breakpoint 2, double () at sum.s:20
20	again:  ret
(gdb) backtrace
#0  double () at sum.s:20
#1  0x000000000001001c in _start () at sum.s:12
...
(gdb) info symbol $pc
double + 2 in section .text
(gdb) info symbol 0x10025
_start + 37 in section .text
(gdb) info address again
Symbol "again" is at 0x10028 in a file compiled without debugging.
