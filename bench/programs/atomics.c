/* Counters that are only changed by atomic operations, in both widths, and a lock of lr and sc. */

#include "bench.h"

static u64 sum, most;
static u32 word, lock;

static void add(u64 *to, u64 value) { __asm__ volatile("amoadd.d zero, %1, %0" : "+A"(*to) : "r"(value) : "memory"); }

static void raise(u64 *to, u64 value) { __asm__ volatile("amomaxu.d zero, %1, %0" : "+A"(*to) : "r"(value) : "memory"); }

static void flip(u32 *to, u32 value) { __asm__ volatile("amoxor.w zero, %1, %0" : "+A"(*to) : "r"(value) : "memory"); }

static void take(u32 *it)
{
    u32 old;
    do
        __asm__ volatile("lr.w.aq %0, %1\n\tbnez %0, 1f\n\tsc.w.rl %0, %2, %1\n1:"
                         : "=&r"(old), "+A"(*it)
                         : "r"(1)
                         : "memory");
    while (old);
}

static void give(u32 *it) { __asm__ volatile("amoswap.w.rl zero, zero, %0" : "+A"(*it) : : "memory"); }

static int round_is_right(void)
{
    sum = most = word = 0;
    for (u32 i = 1; i <= 1000; i++) {
        take(&lock);
        add(&sum, i);
        raise(&most, i * 7 % 1009);
        flip(&word, i);
        give(&lock);
    }
    /* 1 ^ 2 ^ .. ^ 1000 is 1000, since 1000 is a multiple of 4; 7i is 1008 modulo 1009 at i = 144 */
    return sum == 500500 && word == 1000 && most == 1008;
}
