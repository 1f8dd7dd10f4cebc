/* What stdio and `exit` of picolibc leave to the platform, on the board virt: a 16550 UART, and the test device. */

#include <stdio.h>
#include <unistd.h>

static volatile unsigned char *const uart = (unsigned char *)0x10000000;
static volatile unsigned *const test = (unsigned *)0x100000;

void _exit(int status)
{
    status &= 255;
    *test = status ? status << 16 | 0x3333 : 0x5555;
    for (;;)
        ;
}

static int put(char byte, FILE *file)
{
    (void)file;
    while (!(uart[5] & 0x20))
        ;
    uart[0] = byte;
    return (unsigned char)byte;
}

/* A UART has no end of its input: byte 4 (Ctrl-D) ends it here. */
static int get(FILE *file)
{
    (void)file;
    while (!(uart[5] & 1))
        ;
    unsigned char byte = uart[0];
    return byte == 4 ? EOF : byte;
}

static FILE console = FDEV_SETUP_STREAM(put, get, NULL, _FDEV_SETUP_RW);
FILE *const stdin = &console;
FILE *const stdout = &console;
FILE *const stderr = &console;
