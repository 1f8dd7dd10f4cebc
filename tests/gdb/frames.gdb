# Frames of optimized C, by the call frames that GCC writes as data: also inside of the instructions that make one, and at
# the last of a function. Without them gdb ends at the second, since it does not see where `ra` is kept.
# compiled: -O2 -march=rv64imac -mcmodel=medany
# build: start.s prog.s
#--- start.s
.globl _start
_start: call main
li a7, 93
ecall
#--- prog.c
static volatile int total = 1;

__attribute__((noinline)) static int leaf(int n)
{
    total += n;
    return total * 3;
}

__attribute__((noinline)) static int middle(int n)
{
    int first = leaf(n + 1);
    return first + leaf(n + 2) * n;
}

__attribute__((noinline)) int outer(int n)
{
    int sum = 0;
    for (int i = 0; i < n; i++)
        sum += middle(i + 1) ^ sum;
    return sum + leaf(n);
}

int main(void)
{
    return outer(3) & 127;
}
#--- session
(gdb) break *leaf
...
(gdb) continue

Breakpoint 1, leaf (n=n@entry=2) at prog.c:5
5	    total += n;
(gdb) backtrace
#0  leaf (n=n@entry=2) at prog.c:5
#1  0x000000000001003a in middle (n=n@entry=1) at prog.c:11
#2  0x0000000000010070 in outer (n=n@entry=3) at prog.c:19
#3  0x000000000001009c in main () at prog.c:25
(gdb) up 2
#2  0x0000000000010070 in outer (n=n@entry=3) at prog.c:19
19	        sum += middle(i + 1) ^ sum;
(gdb) info locals
i = <optimized out>
sum = 0
(gdb) delete
(gdb) break *middle
...
(gdb) continue

Breakpoint 2, middle (n=n@entry=2) at prog.c:11
11	    int first = leaf(n + 1);
(gdb) stepi
...
(gdb) backtrace
#0  0x000000000001002c in middle (n=n@entry=2) at prog.c:11
#1  0x0000000000010070 in outer (n=n@entry=3) at prog.c:19
#2  0x000000000001009c in main () at prog.c:25
(gdb) break *0x10052
...
(gdb) continue

Breakpoint 3, 0x0000000000010052 in middle (n=n@entry=2) at prog.c:13
13	}
(gdb) backtrace
#0  0x0000000000010052 in middle (n=n@entry=2) at prog.c:13
#1  0x0000000000010070 in outer (n=n@entry=3) at prog.c:19
#2  0x000000000001009c in main () at prog.c:25
(gdb) finish
...
Value returned is $1 = 105
