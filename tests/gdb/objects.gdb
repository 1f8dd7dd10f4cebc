# An object of GCC that `rv ld -g` linked behind one of rv: lines, types, variables and frames of C beside lines of assembly.
# objects: -O0 -march=rv64imac -mcmodel=medany
#--- start.s
.globl _start
_start: call main
li a7, 93
ecall
#--- prog.c
struct point { int x; long y; };
typedef struct point Point;

int total = 5;
static Point where = {1, 2};

static int sum(Point *p, int n)
{
    int s = 0;
    for (int i = 0; i < n; i++)
        s += p->x + i;
    return s + (int)p->y;
}

int main(void)
{
    where.x = total;
    int r = sum(&where, 4);
    return r;
}
#--- session
(gdb) break sum
...
(gdb) continue

Breakpoint 1, sum (p=0x11000 <where>, n=4) at prog.c:9
9	    int s = 0;
(gdb) backtrace
#0  sum (p=0x11000 <where>, n=4) at prog.c:9
#1  0x000000000001009c in main () at prog.c:18
(gdb) print *p
$1 = {x = 5, y = 2}
(gdb) print where
$2 = {x = 5, y = 2}
(gdb) ptype p
type = struct point {
    int x;
    long y;
} *
(gdb) info line start.s:3
Line 3 of "start.s" starts at address 0x10004 <_start+4> and ends at 0x10008 <_start+8>.
(gdb) finish
...
Value returned is $3 = 28
(gdb) next
19	    return r;
(gdb) info locals
r = 28
