# A source that GCC wrote, by objects of `rv as -g` and `rv ld -g`, with DWARF 4.
# compiled: -O0 -march=rv64imac -mcmodel=medany -gdwarf-4
# link: start.s prog.s
#--- start.s
.globl _start
_start: call main
li a7, 93
ecall
#--- prog.c
struct point { int x; long y; };
typedef struct point Point;

int total = 5;
static Point where = {1, 2};

static int sum(Point *p, int n)
{
    int s = 0;
    for (int i = 0; i < n; i++)
        s += p->x + i;
    return s + (int)p->y;
}

int main(void)
{
    where.x = total;
    int r = sum(&where, 4);
    return r;
}
#--- session
(gdb) break sum
...
(gdb) continue

Breakpoint 1, sum (p=0x11008 <where>, n=4) at prog.c:9
9	    int s = 0;
(gdb) backtrace
#0  sum (p=0x11008 <where>, n=4) at prog.c:9
#1  0x00000000000100a2 in main () at prog.c:18
(gdb) print *p
$1 = {x = 5, y = 2}
(gdb) print where
$2 = {x = 5, y = 2}
(gdb) ptype p
type = struct point {
    int x;
    long y;
} *
(gdb) info line start.s:3
...
(gdb) finish
...
Value returned is $3 = 28
(gdb) next
19	    return r;
(gdb) info locals
r = 28
