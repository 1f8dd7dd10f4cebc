/* Lines that are written one by one, each by a call of the environment, and now and then an empty read. */

#include "bench.h"

static int round_is_right(void)
{
    static char line[64];
    u64 written = 0;
    for (u64 i = 0; i < 32; i++) {
        for (u64 at = 0; at < 63; at++)
            line[at] = 'a' + (i + at) % 26;
        line[63] = '\n';
        written += put(line, 64);
        if (i % 8 == 0 && get(line, 0) != 0)
            return 0;
    }
    return written == 32 * 64;
}
