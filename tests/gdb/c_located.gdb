# A source of plain `gcc -g -O2`, whose lines are `.loc`, in sections of their own: `rv build -g` shows the lines of C.
# located: -O2 -march=rv64imac -mcmodel=medany
# build: start.s prog.s
#--- start.s
.globl _start
_start: call main
li a7, 93
ecall
#--- prog.c
struct point { int x; long y; };
typedef struct point Point;

int total = 5;
static Point where = {1, 2};

__attribute__((noinline)) static int sum(Point *p, int n)
{
    int s = 0;
    for (int i = 0; i < n; i++)
        s += p->x * p->x + i;
    return s + (int)p->y;
}

int main(void)
{
    where.x = total;
    int r = sum(&where, 4);
    total = r + 1;
    return r;
}
#--- session
(gdb) break sum
Breakpoint 1 at 0x1000c: file prog.c, line 10.
(gdb) continue

Breakpoint 1, sum (n=4, p=0x11000 <where>) at prog.c:10
10	    for (int i = 0; i < n; i++)
(gdb) print *p
$1 = {x = 5, y = 2}
(gdb) next
12	    return s + (int)p->y;
(gdb) next
main () at prog.c:19
19	    total = r + 1;
(gdb) next
20	    return r;
(gdb) print total
$2 = 109
(gdb) next
_start () at start.s:3
3	li a7, 93
(gdb) info line sum
Line 10 of "prog.c" starts at address 0x1000c <sum> and ends at 0x10016 <sum+10>.
(gdb) info line main
Line 17 of "prog.c" starts at address 0x10028 <main> and ends at 0x1002c <main+4>.
