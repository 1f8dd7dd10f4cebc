/* What a C program needs on the bare machine: its start, the calls of the environment, and printing. */

typedef unsigned long u64;
typedef long i64;
typedef unsigned int u32;
typedef int i32;
typedef unsigned char u8;

static u64 call(u64 number, u64 a, u64 b, u64 c)
{
    register u64 a7 __asm__("a7") = number;
    register u64 a0 __asm__("a0") = a;
    register u64 a1 __asm__("a1") = b;
    register u64 a2 __asm__("a2") = c;
    __asm__ volatile("ecall" : "+r"(a0) : "r"(a7), "r"(a1), "r"(a2) : "memory");
    return a0;
}

static inline u64 get(void *bytes, u64 count) { return call(63, 0, (u64)bytes, count); }

static inline u64 put(const void *bytes, u64 count) { return call(64, 1, (u64)bytes, count); }

/* GCC may call these itself. */
void *memset(void *to, int byte, u64 count)
{
    for (u64 i = 0; i < count; i++)
        ((volatile u8 *)to)[i] = byte;
    return to;
}

void *memcpy(void *to, const void *from, u64 count)
{
    for (u64 i = 0; i < count; i++)
        ((volatile u8 *)to)[i] = ((const u8 *)from)[i];
    return to;
}

static void text(const char *line)
{
    u64 count = 0;
    while (line[count])
        count++;
    put(line, count);
}

static void number(i64 value)
{
    char digits[20];
    int at = sizeof digits;
    u64 left = value < 0 ? -(u64)value : (u64)value;
    do {
        digits[--at] = '0' + left % 10;
        left /= 10;
    } while (left);
    if (value < 0)
        text("-");
    put(digits + at, sizeof digits - at);
}

static int program(void);

/* The linker may address data from gp, which it wants set (psABI, "Global-pointer Relaxation"). */
__asm__(".globl _start\n_start:\n.option push\n.option norelax\nla gp, __global_pointer$\n.option pop\ncall begin\n");

__attribute__((used)) static void begin(void)
{
    call(93, program(), 0, 0);
    __builtin_unreachable();
}
