/* The arithmetic of 128 bits that clang calls by name, as the runtime library of a compiler has it. */

typedef __UINT64_TYPE__ uint64_t;
typedef __INT64_TYPE__ int64_t;

typedef unsigned __int128 wide;
typedef __int128 signed_wide;

static wide joined(uint64_t high, uint64_t low)
{
    wide value;
    __builtin_memcpy(&value, (uint64_t[]){low, high}, sizeof value);
    return value;
}

static uint64_t low(wide value)
{
    return (uint64_t)value;
}

static uint64_t high(wide value)
{
    uint64_t halves[2];
    __builtin_memcpy(halves, &value, sizeof halves);
    return halves[1];
}

wide __ashlti3(wide value, int by)
{
    by &= 127;
    if (by == 0)
        return value;
    if (by >= 64)
        return joined(low(value) << (by - 64), 0);
    return joined(high(value) << by | low(value) >> (64 - by), low(value) << by);
}

wide __lshrti3(wide value, int by)
{
    by &= 127;
    if (by == 0)
        return value;
    if (by >= 64)
        return joined(0, high(value) >> (by - 64));
    return joined(high(value) >> by, low(value) >> by | high(value) << (64 - by));
}

signed_wide __ashrti3(signed_wide value, int by)
{
    int64_t upper = (int64_t)high(value);
    by &= 127;
    if (by == 0)
        return value;
    if (by >= 64)
        return joined(upper >> 63, upper >> (by - 64));
    return joined(upper >> by, low(value) >> by | (uint64_t)upper << (64 - by));
}

signed_wide __multi3(signed_wide a, signed_wide b)
{
    const uint64_t mask = 0xffffffff;
    uint64_t a0 = low(a) & mask, a1 = low(a) >> 32, b0 = low(b) & mask, b1 = low(b) >> 32;
    uint64_t p0 = a0 * b0, p1 = a0 * b1, p2 = a1 * b0;
    uint64_t middle = (p0 >> 32) + (p1 & mask) + (p2 & mask);
    uint64_t upper = a1 * b1 + (p1 >> 32) + (p2 >> 32) + (middle >> 32);
    return joined(upper + low(a) * high(b) + high(a) * low(b), (p0 & mask) | middle << 32);
}

static wide divided(wide a, wide b, wide *rest)
{
    wide quotient = 0, left = 0;
    for (int at = 127; at >= 0; at--) {
        left = left << 1 | (a >> at & 1);
        if (left >= b) {
            left -= b;
            quotient |= (wide)1 << at;
        }
    }
    *rest = left;
    return quotient;
}

static wide magnitude(signed_wide value)
{
    return value < 0 ? -(wide)value : (wide)value;
}

wide __udivti3(wide a, wide b)
{
    wide rest;
    return divided(a, b, &rest);
}

wide __umodti3(wide a, wide b)
{
    wide rest;
    divided(a, b, &rest);
    return rest;
}

signed_wide __divti3(signed_wide a, signed_wide b)
{
    wide rest, quotient = divided(magnitude(a), magnitude(b), &rest);
    return (a < 0) != (b < 0) ? -quotient : quotient;
}

signed_wide __modti3(signed_wide a, signed_wide b)
{
    wide rest;
    divided(magnitude(a), magnitude(b), &rest);
    return a < 0 ? -rest : rest;
}
