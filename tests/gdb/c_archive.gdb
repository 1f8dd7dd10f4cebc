# A source that GCC wrote, with one of assembly, an archive of C, and a name by one of the program: `rv build -g`.
# compiled: -O1 -march=rv64imac -mcmodel=medany
# archived: -O0 -march=rv64imac -mcmodel=medany
# build: start.s prog.s --library prog.a --defsym heap=arena+16
#--- start.s
.globl _start
_start: call main
li a7, 93
ecall
#--- prog.c
struct cell { struct cell *next; char name[4]; };
extern struct cell *push(struct cell *top, char first);
extern struct cell heap[];

struct cell *top;
long arena[16];

int main(void)
{
    top = push(0, 'a');
    top = push(top, 'b');
    return top->name[0] - top->next->name[0];
}
#--- library.c
struct cell { struct cell *next; char name[4]; };
extern struct cell heap[];
static int used;

struct cell *push(struct cell *top, char first)
{
    struct cell *made = heap + used++;
    made->next = top;
    made->name[0] = first;
    return made;
}
#--- session
(gdb) break library.c:10
Breakpoint 1 at 0x1009a: file library.c, line 10.
(gdb) continue

Breakpoint 1, push (top=0x0, first=97 'a') at library.c:10
10	    return made;
(gdb) continue

Breakpoint 1, push (top=0x11010 <arena+16>, first=98 'b') at library.c:10
10	    return made;
(gdb) backtrace
#0  push (top=0x11010 <arena+16>, first=98 'b') at library.c:10
#1  0x000000000001002e in main () at prog.c:11
(gdb) print *made
$1 = {next = 0x11010 <arena+16>, name = "b\000\000"}
(gdb) print *made->next
$2 = {next = 0x0, name = "a\000\000"}
(gdb) print used
$3 = 2
(gdb) print (char *) heap - (char *) arena
$4 = 16
(gdb) finish
...
Value returned is $5 = (struct cell *) 0x11020 <arena+32>
(gdb) next
12	    return top->name[0] - top->next->name[0];
(gdb) print top->next->name
$6 = "a\000\000"
(gdb) info line start.s:3
Line 3 of "start.s" starts at address 0x10004 <_start+4> and ends at 0x10008 <_start+8>.
