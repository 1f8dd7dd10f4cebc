/* A text becomes copies of what stood before it and bytes of its own (as LZ77 does), and then itself again. */

#include "bench.h"

#define LENGTH 2048
#define WINDOW 64

static u8 text_bytes[LENGTH], packed[2 * LENGTH], again[LENGTH];

static u64 pack(void)
{
    u64 out = 0;
    for (u64 at = 0; at < LENGTH;) {
        u64 best = 0, far = 0;
        for (u64 back = 1; back <= WINDOW && back <= at; back++) {
            u64 count = 0;
            while (count < 255 && at + count < LENGTH && text_bytes[at + count] == text_bytes[at - back + count])
                count++;
            if (count > best)
                best = count, far = back;
        }
        packed[out++] = best > 2 ? far : 0;
        packed[out++] = best > 2 ? best : text_bytes[at];
        at += best > 2 ? best : 1;
    }
    return out;
}

static void unpack(u64 count)
{
    u64 to = 0;
    for (u64 at = 0; at < count; at += 2)
        if (packed[at])
            for (u64 i = 0; i < packed[at + 1]; i++, to++)
                again[to] = again[to - packed[at]];
        else
            again[to++] = packed[at + 1];
}

static int round_is_right(void)
{
    for (u64 i = 0; i < LENGTH; i++)
        text_bytes[i] = i % 48 < 40 ? 'a' + i % 7 : i * i >> 5;
    u64 count = pack();
    unpack(count);
    for (u64 i = 0; i < LENGTH; i++)
        if (again[i] != text_bytes[i])
            return 0;
    return count < LENGTH;
}
