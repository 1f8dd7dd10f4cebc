# Objects of two sources that name them, linked with names and lines: breakpoints, frames, lines and steps.
# link: start.s square.s
#--- start.s
# The sum of the squares of three numbers.
.globl _start, sum
_start: la   a0, numbers
        li   a1, 3
        call sum
        li   a7, 93
        ecall

sum:    addi sp, sp, -32
        sd   ra, 24(sp)
        sd   s0, 16(sp)
        mv   s0, a0
        li   a2, 0
1:      lw   a0, (s0)
        call square
        add  a2, a2, a0
        addi s0, s0, 4
        addi a1, a1, -1
        bnez a1, 1b
        mv   a0, a2
        ld   s0, 16(sp)
        ld   ra, 24(sp)
        addi sp, sp, 32
        ret

.data
numbers: .word 3, 4, 5
#--- square.s
.globl square
# A number by itself.
square: mul  a0, a0, a0
        ret
#--- session
(gdb) break square
Breakpoint 1 at 0x10038: file square.s, line 3.
(gdb) continue

Breakpoint 1, square () at square.s:3
3	square: mul  a0, a0, a0
(gdb) backtrace
#0  square () at square.s:3
#1  0x0000000000010026 in sum () at start.s:15
...
(gdb) list
1	.globl square
2	# A number by itself.
3	square: mul  a0, a0, a0
4	        ret
(gdb) info symbol $pc
square in section .text
(gdb) finish
...
16	        add  a2, a2, a0
(gdb) next
17	        addi s0, s0, 4
(gdb) info line 15
Line 15 of "start.s" starts at address 0x10022 <sum+12> and ends at 0x10026 <sum+16>.
(gdb) delete
(gdb) tbreak start.s:7
Temporary breakpoint 2 at 0x10012: file start.s, line 7.
(gdb) continue

Temporary breakpoint 2, _start () at start.s:7
7	        ecall
(gdb) print $a0
$1 = 50
(gdb) info source
Current source file is start.s
...
Source language is asm.
...
