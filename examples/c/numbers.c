/* Arithmetic of every width at the edges: quotients, remainders, shifts, products, packed fields, atomics. */
#include "bare.h"

#define COUNT(array) (int)(sizeof array / sizeof *array)

static volatile i64 edges[] = {0, 1, -1, 2, 7, -7, 127, -128, 32767, -32768, 2147483647, -2147483648,
                               4294967295, 4294967296, 9223372036854775807, -9223372036854775807 - 1};

struct packed {
    u8 first;
    u64 wide;
    unsigned short half;
    u32 bits : 11, more : 21;
} __attribute__((packed));

static u64 digest;

static void take(i64 value) { digest = digest * 1000003 + value; }

static void pair(i64 a, i64 b)
{
    take((u64)a + b), take((u64)a - b), take((u64)a * b), take((i32)a + (i64)(i32)b), take(a < b), take((u64)a < (u64)b);
    take((unsigned __int128)(u64)a * (u64)b >> 64), take((__int128)a * b >> 64);
    take((u64)a << (b & 63)), take((u64)a >> (b & 63)), take(a >> (b & 63));
    take((u32)a << (b & 31)), take((u32)a >> (b & 31)), take((i32)a >> (b & 31));
    take((u32)a * (u32)b), take((short)a * (signed char)b);
    if (b)
        take((u64)a / (u64)b), take((u64)a % (u64)b);
    if (b && b != -1)
        take(a / b), take(a % b);
    if ((u32)b)
        take((u32)a / (u32)b), take((u32)a % (u32)b);
    if ((i32)b && (i32)b != -1)
        take((i32)a / (i32)b), take((i32)a % (i32)b);
}

static void fields(i64 value)
{
    static volatile struct packed kept;
    kept.wide = value;
    kept.half = value >> 7;
    kept.bits = value;
    kept.more = value >> 3;
    kept.first += kept.half;
    take(kept.first), take(kept.wide), take(kept.half), take(kept.bits), take(kept.more);
}

static void atomics(i64 value)
{
    static i64 wide;
    static i32 narrow;
    take(__atomic_fetch_add(&wide, value, __ATOMIC_SEQ_CST));
    take(__atomic_fetch_xor(&narrow, (i32)value, __ATOMIC_ACQUIRE));
    take(__atomic_exchange_n(&narrow, (i32)value, __ATOMIC_RELEASE));
    i64 wanted = value;
    take(__atomic_compare_exchange_n(&wide, &wanted, value + 1, 0, __ATOMIC_SEQ_CST, __ATOMIC_SEQ_CST));
    take(wanted);
}

static int program(void)
{
    for (int i = 0; i < COUNT(edges); i++) {
        for (int j = 0; j < COUNT(edges); j++)
            pair(edges[i], edges[j]);
        fields(edges[i]);
        atomics(edges[i]);
        number(digest);
        text("\n");
    }
    return digest & 255;
}
