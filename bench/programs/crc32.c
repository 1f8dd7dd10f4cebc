/* CRC-32 (IEEE 802.3, reflected) of the numbers 0 to 255 again and again, by a table of 256 words. */

#include "bench.h"

#define BYTES 65536

static u32 table[256];
static u8 bytes[BYTES];

static void fill(void)
{
    for (u32 i = 0; i < 256; i++) {
        u32 word = i;
        for (int bit = 0; bit < 8; bit++)
            word = word & 1 ? word >> 1 ^ 0xEDB88320 : word >> 1;
        table[i] = word;
    }
    for (u32 i = 0; i < BYTES; i++)
        bytes[i] = i;
}

static u32 crc(const u8 *from, u64 count)
{
    u32 crc = 0xFFFFFFFF;
    while (count--)
        crc = table[(crc ^ *from++) & 255] ^ crc >> 8;
    return ~crc;
}

static int round_is_right(void)
{
    fill();
    return crc((const u8 *)"123456789", 9) == 0xCBF43926 && crc(bytes, BYTES) == 0xB11DE6A1;
}
