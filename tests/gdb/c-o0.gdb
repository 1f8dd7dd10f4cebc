# A program of C without optimization: lines, frames and variables, forwards and back.
# gcc: -O0 -march=rv64i
#--- start.s
.globl _start
_start: call main
li a7, 93
ecall
#--- prog.c
int total;

static int mixed(int n)
{
    int sum = 0;
    for (int i = 0; i < n; i++)
        sum += i ^ n;
    return sum;
}

int main(void)
{
    for (int k = 1; k <= 4; k++)
        total += mixed(k);
    return total;
}
#--- session
(gdb) break mixed
...
(gdb) continue

Breakpoint 1, mixed (n=1) at prog.c:5
5	    int sum = 0;
(gdb) backtrace
#0  mixed (n=1) at prog.c:5
...
(gdb) finish
...
14	        total += mixed(k);
Value returned is $1 = 1
(gdb) next
13	    for (int k = 1; k <= 4; k++)
(gdb) print total
$2 = 1
(gdb) continue

Breakpoint 1, mixed (n=2) at prog.c:5
5	    int sum = 0;
(gdb) next
6	    for (int i = 0; i < n; i++)
(gdb) next
7	        sum += i ^ n;
(gdb) next
6	    for (int i = 0; i < n; i++)
(gdb) info locals
i = 0
sum = 2
(gdb) reverse-next
7	        sum += i ^ n;
(gdb) print sum
$3 = 0
(gdb) delete
(gdb) reverse-finish
...
14	        total += mixed(k);
(gdb) watch total
Hardware watchpoint 2: total
(gdb) continue

Hardware watchpoint 2: total

Old value = 1
New value = 6
...
(gdb) continue

Hardware watchpoint 2: total

Old value = 6
New value = 12
...
(gdb) reverse-continue

Hardware watchpoint 2: total

Old value = 12
New value = 6
...
(gdb) delete
(gdb) print mixed(7)
$4 = 28
(gdb) print total
$5 = 6
(gdb) monitor stats
...
(gdb) continue
[Inferior 1 (Remote target) exited with code 042]
