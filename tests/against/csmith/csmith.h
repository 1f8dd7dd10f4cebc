/* Stands in for csmith's own header, which needs a C library: a program's sum is that of runtime.c. */
#include <float.h>
#include <limits.h>
#include <stdint.h>

#ifdef APART
extern uint64_t crc32_context;
void transparent_crc(uint64_t value, char *name, int shown);
void transparent_crc_bytes(char *bytes, int count, char *name, int shown);
#else
#include "runtime.c"
#endif

#define assert(claim)
#define printf(...) ((void)0)
#define LOG_INDEX
#define LOG_EXEC
#define STATIC static inline
#define UNDEFINED(value) (value)
#define _CSMITH_BITFIELD(count) ((count) > 32 ? (count) % 32 : (count))

static inline void platform_main_begin(void) {}
static inline void platform_main_end(uint64_t sum, int shown) {}
static inline void crc32_gentab(void) {}

#define FUNC_NAME(name) (safe_##name)
#include <safe_math.h>
#undef FUNC_NAME

/* Each program begins with `static long __undefined;`, which -O0 would write with `.comm`. */
#define __undefined __undefined = 1
