# The same program, optimized.
# gcc: -O2 -fno-inline -march=rv64i
#--- start.s
.globl _start
_start: call main
li a7, 93
ecall
#--- prog.c
int total;

static int mixed(int n)
{
    int sum = 0;
    for (int i = 0; i < n; i++)
        sum += i ^ n;
    return sum;
}

int main(void)
{
    for (int k = 1; k <= 4; k++)
        total += mixed(k);
    return total;
}
#--- session
(gdb) break mixed
...
(gdb) continue

Breakpoint 1, mixed (n=n@entry=1) at prog.c:6
6	    for (int i = 0; i < n; i++)
(gdb) continue

Breakpoint 1, mixed (n=n@entry=2) at prog.c:6
6	    for (int i = 0; i < n; i++)
(gdb) finish
...
14	        total += mixed(k);
Value returned is $1 = 5
(gdb) reverse-continue

Breakpoint 1, mixed (n=n@entry=2) at prog.c:6
6	    for (int i = 0; i < n; i++)
(gdb) reverse-continue

Breakpoint 1, mixed (n=n@entry=1) at prog.c:6
6	    for (int i = 0; i < n; i++)
(gdb) delete
(gdb) watch total
Hardware watchpoint 2: total
(gdb) continue

Hardware watchpoint 2: total

Old value = 0
New value = 34
...
(gdb) reverse-stepi
...
(gdb) print total
$2 = 0
(gdb) delete
(gdb) continue
[Inferior 1 (Remote target) exited with code 042]
