# An object of GCC without debug information, that `rv ld -g` linked: its symbol table names static functions and data.
# objects: -g0 -O0 -march=rv64imac -mcmodel=medany
#--- start.s
.globl _start
_start: call main
li a7, 93
ecall
#--- prog.c
static int seen[3] = {1, 2, 3};

static int last(int n)
{
    return seen[n % 3];
}

static int middle(int n)
{
    return last(n) + 1;
}

int main(void)
{
    return middle(2);
}
#--- session
(gdb) break last
...
(gdb) continue

Breakpoint 1, 0x000000000001001e in last ()
(gdb) backtrace
#0  0x000000000001001e in last ()
#1  0x0000000000010054 in middle ()
#2  0x0000000000010072 in main ()
(gdb) info symbol $pc
last + 18 in section .text
(gdb) info symbol (char *) &seen + 8
seen + 8 in section .data
(gdb) x/2dw &seen
0x11000 <seen>:	1	2
(gdb) info line middle
No line number information available for address 0x1003c <middle>
