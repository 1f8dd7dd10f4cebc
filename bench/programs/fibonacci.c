/* Fibonacci's numbers by calls of itself: prologues, epilogues and the stack. */

#include "bench.h"

static __attribute__((noinline)) u64 fibonacci(u64 n) { return n < 2 ? n : fibonacci(n - 1) + fibonacci(n - 2); }

static int round_is_right(void) { return fibonacci(20) == 6765; }
