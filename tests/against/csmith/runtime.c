/* What the random programs of csmith need: a sum over their variables, which is printed at the end and gives the status. */
#include "../../../examples/c/bare.h"

u64 crc32_context = 1;

int main(void);

void transparent_crc(u64 value, char *name, int shown) { crc32_context = crc32_context * 1000003 + value; }

void transparent_crc_bytes(char *bytes, int count, char *name, int shown)
{
    for (int i = 0; i < count; i++)
        transparent_crc(bytes[i], name, shown);
}

static int program(void)
{
    main();
    number(crc32_context);
    text("\n");
    return crc32_context & 255;
}
