/* Refuses one request for memory of the program before which it is loaded: the one whose number, from 1, REFUSE says.
   With MARKED, only the requests between the program's first write and its second count: rv_refusal_tests writes a line just
   before the call that it makes, and one just after it. At the program's end the count goes to the file that REQUESTS
   names. See refused.py. */

#include <errno.h>
#include <stdio.h>
#include <stdlib.h>
#include <sys/syscall.h>
#include <unistd.h>

extern void *__libc_malloc(size_t), *__libc_realloc(void *, size_t);

static unsigned long made, refused, writes;
static int marked, counts = 1;

static int refuses(void) { return counts && ++made == refused ? errno = ENOMEM : 0; }

void *malloc(size_t size) { return refuses() ? NULL : __libc_malloc(size); }

void *realloc(void *block, size_t size) { return refuses() ? NULL : __libc_realloc(block, size); }

ssize_t write(int file, const void *bytes, size_t count) {
  if (marked) counts = ++writes == 1;
  return syscall(SYS_write, file, bytes, count);
}

/* what the loader asked for does not count */
__attribute__((constructor)) static void begin(void) {
  const char *number = getenv("REFUSE");
  refused = number ? strtoul(number, NULL, 10) : 0;
  marked = getenv("MARKED") != NULL;
  counts = !marked;
  made = 0;
}

__attribute__((destructor)) static void end(void) {
  const char *name = getenv("REQUESTS");
  unsigned long count = made;
  FILE *file = name ? fopen(name, "w") : NULL;
  if (file) fprintf(file, "%lu\n", count), fclose(file);
}
