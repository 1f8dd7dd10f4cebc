/* The console of a program: what stdio and `exit` of picolibc leave to the platform. */

#include <stdio.h>
#include <unistd.h>

static long call(long number, long a, long b, long c)
{
    register long a7 __asm__("a7") = number;
    register long a0 __asm__("a0") = a;
    register long a1 __asm__("a1") = b;
    register long a2 __asm__("a2") = c;
    __asm__ volatile("ecall" : "+r"(a0) : "r"(a7), "r"(a1), "r"(a2) : "memory");
    return a0;
}

void _exit(int status)
{
    call(93, status, 0, 0);
    __builtin_unreachable();
}

static int put(char byte, FILE *file)
{
    (void)file;
    return call(64, 1, (long)&byte, 1) == 1 ? (unsigned char)byte : EOF;
}

static int get(FILE *file)
{
    unsigned char byte;
    (void)file;
    return call(63, 0, (long)&byte, 1) == 1 ? byte : EOF;
}

static FILE console = FDEV_SETUP_STREAM(put, get, NULL, _FDEV_SETUP_RW);
FILE *const stdin = &console;
FILE *const stdout = &console;
FILE *const stderr = &console;
