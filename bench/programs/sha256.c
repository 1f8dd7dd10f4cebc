/* SHA-256 (FIPS 180-4) of 16,384 bytes `a` and of `abc`. */

#include "bench.h"

#define BYTES 16384

static const u32 constants[64] = {
    0x428A2F98, 0x71374491, 0xB5C0FBCF, 0xE9B5DBA5, 0x3956C25B, 0x59F111F1, 0x923F82A4, 0xAB1C5ED5,
    0xD807AA98, 0x12835B01, 0x243185BE, 0x550C7DC3, 0x72BE5D74, 0x80DEB1FE, 0x9BDC06A7, 0xC19BF174,
    0xE49B69C1, 0xEFBE4786, 0x0FC19DC6, 0x240CA1CC, 0x2DE92C6F, 0x4A7484AA, 0x5CB0A9DC, 0x76F988DA,
    0x983E5152, 0xA831C66D, 0xB00327C8, 0xBF597FC7, 0xC6E00BF3, 0xD5A79147, 0x06CA6351, 0x14292967,
    0x27B70A85, 0x2E1B2138, 0x4D2C6DFC, 0x53380D13, 0x650A7354, 0x766A0ABB, 0x81C2C92E, 0x92722C85,
    0xA2BFE8A1, 0xA81A664B, 0xC24B8B70, 0xC76C51A3, 0xD192E819, 0xD6990624, 0xF40E3585, 0x106AA070,
    0x19A4C116, 0x1E376C08, 0x2748774C, 0x34B0BCB5, 0x391C0CB3, 0x4ED8AA4A, 0x5B9CCA4F, 0x682E6FF3,
    0x748F82EE, 0x78A5636F, 0x84C87814, 0x8CC70208, 0x90BEFFFA, 0xA4506CEB, 0xBEF9A3F7, 0xC67178F2,
};

static u8 message[BYTES + 72];
static u32 state[8];

static u32 turned(u32 word, int by) { return word >> by | word << (32 - by); }

static void add_block(const u8 *block)
{
    u32 w[64], a[8];
    for (int i = 0; i < 16; i++)
        w[i] = (u32)block[4 * i] << 24 | block[4 * i + 1] << 16 | block[4 * i + 2] << 8 | block[4 * i + 3];
    for (int i = 16; i < 64; i++) {
        u32 low = turned(w[i - 15], 7) ^ turned(w[i - 15], 18) ^ w[i - 15] >> 3;
        u32 high = turned(w[i - 2], 17) ^ turned(w[i - 2], 19) ^ w[i - 2] >> 10;
        w[i] = w[i - 16] + low + w[i - 7] + high;
    }
    for (int i = 0; i < 8; i++)
        a[i] = state[i];
    for (int i = 0; i < 64; i++) {
        u32 high = turned(a[4], 6) ^ turned(a[4], 11) ^ turned(a[4], 25);
        u32 choice = (a[4] & a[5]) ^ (~a[4] & a[6]);
        u32 first = a[7] + high + choice + constants[i] + w[i];
        u32 low = turned(a[0], 2) ^ turned(a[0], 13) ^ turned(a[0], 22);
        u32 majority = (a[0] & a[1]) ^ (a[0] & a[2]) ^ (a[1] & a[2]);
        for (int j = 7; j > 0; j--)
            a[j] = a[j - 1];
        a[4] += first;
        a[0] = first + low + majority;
    }
    for (int i = 0; i < 8; i++)
        state[i] += a[i];
}

/* The first word of the digest of the message's first bytes. */
static u32 digest(u64 count)
{
    static const u32 first[8] = {
        0x6A09E667, 0xBB67AE85, 0x3C6EF372, 0xA54FF53A, 0x510E527F, 0x9B05688C, 0x1F83D9AB, 0x5BE0CD19,
    };
    for (int i = 0; i < 8; i++)
        state[i] = first[i];
    u64 end = (count + 72) / 64 * 64;
    for (u64 i = count; i < end; i++)
        message[i] = i == count ? 0x80 : 0;
    for (int i = 0; i < 8; i++)
        message[end - 1 - i] = count * 8 >> 8 * i;
    for (u64 i = 0; i < end; i += 64)
        add_block(message + i);
    return state[0];
}

static int round_is_right(void)
{
    message[0] = 'a', message[1] = 'b', message[2] = 'c';
    if (digest(3) != 0xBA7816BF)
        return 0;
    for (u64 i = 0; i < BYTES; i++)
        message[i] = 'a';
    return digest(BYTES) == 0xF3336BEA;
}
