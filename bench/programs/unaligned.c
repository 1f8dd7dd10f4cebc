/* Records of 15 bytes, packed without alignment: numbers of 8, 4, 2 and 1 bytes at odd addresses. */

#include "bench.h"

#define RECORDS 256

static u8 bytes[RECORDS * 15];

static u64 get_8(const u8 *at) { u64 value; __asm__("ld %0, %1" : "=r"(value) : "m"(*(const u64 *)at)); return value; }
static u32 get_4(const u8 *at) { u64 value; __asm__("lwu %0, %1" : "=r"(value) : "m"(*(const u32 *)at)); return value; }
static u32 get_2(const u8 *at) { u64 value; __asm__("lhu %0, %1" : "=r"(value) : "m"(*(const short *)at)); return value; }
static void put_8(u8 *at, u64 value) { __asm__("sd %1, %0" : "=m"(*(u64 *)at) : "r"(value)); }
static void put_4(u8 *at, u32 value) { __asm__("sw %1, %0" : "=m"(*(u32 *)at) : "r"(value)); }
static void put_2(u8 *at, u32 value) { __asm__("sh %1, %0" : "=m"(*(short *)at) : "r"(value)); }

static int round_is_right(void)
{
    u64 sum = 0;
    for (u64 i = 0; i < RECORDS; i++) {
        u8 *at = bytes + i * 15;
        put_8(at, i * i);
        put_4(at + 8, i);
        put_2(at + 12, i);
        at[14] = 1;
    }
    __asm__ volatile("" : : : "memory");
    for (u64 i = 0; i < RECORDS; i++) {
        const u8 *at = bytes + i * 15;
        sum += get_8(at) + get_4(at + 8) + get_2(at + 12) + at[14];
    }
    /* of 0 to 255 the squares, the numbers twice, and 1 each */
    return sum == 255 * 256 / 6 * 511 + 255 * 256 + 256;
}
