# Labels that no other file may mean: breakpoints, frames and addresses by their names, as with GNU as and ld.
# build: sum.s
#--- sum.s
# The double of the sum of three numbers.
.globl _start
_start: la   s0, values
        li   s1, 3
        li   s2, 0
next:   lw   t0, (s0)
        add  s2, s2, t0
        addi s0, s0, 4
        addi s1, s1, -1
        bnez s1, next
.Lbehind:
        call double
        j    finish
.align 4
double: slli s2, s2, 1
        ret
.align 4
finish: mv   a0, s2
        li   a7, 93
        ecall
text_end:

.data
first:  .word 1
values: .word 3, 4, 5
values_end:
#--- session
(gdb) break next
Breakpoint 1 at 0x1000c: file sum.s, line 6.
(gdb) continue

Breakpoint 1, next () at sum.s:6
6	next:   lw   t0, (s0)
(gdb) info symbol $pc
next in section .text
(gdb) info line double
Line 15 of "sum.s" starts at address 0x10020 <double> and ends at 0x10022 <double+2>.
(gdb) delete
(gdb) break double
Breakpoint 2 at 0x10020: file sum.s, line 15.
(gdb) continue

Breakpoint 2, double () at sum.s:15
15	double: slli s2, s2, 1
(gdb) backtrace
#0  double () at sum.s:15
#1  0x000000000001001c in next () at sum.s:12
...
(gdb) tbreak finish
Temporary breakpoint 3 at 0x10030: file sum.s, line 18.
(gdb) continue

Temporary breakpoint 3, finish () at sum.s:18
18	finish: mv   a0, s2
(gdb) info symbol 0x10016
next + 10 in section .text
(gdb) info symbol 0x1001e
next + 18 in section .text
(gdb) print (long) text_end - (long) finish
$1 = 10
(gdb) print (long) &values - (long) &first
$2 = 4
(gdb) print (long) &values_end - (long) &values
$3 = 12
(gdb) print/x *(int *) &values
$4 = 0x3
