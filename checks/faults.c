// Put before the C library (LD_PRELOAD), refuses one call of a program. FAULT is `NAME:N:ERROR`: the Nth call of NAME,
// counted from 1, answers this error number; or `NAME:0:1`: each read or write of NAME does one byte at most. `memory`
// stands for malloc and realloc. What came of it goes to descriptor 9, a byte each: R for a call that was refused, W
// for each write behind a refusal that isn't to standard error.
#define _GNU_SOURCE
#include <dlfcn.h>
#include <errno.h>
#include <stddef.h>
#include <stdlib.h>
#include <string.h>
#include <sys/syscall.h>
#include <unistd.h>

enum { NOTES = 2, TOLD = 9 };

typedef long call(long, long, long, long, long, long);

extern void *__libc_malloc(size_t);
extern void *__libc_realloc(void *, size_t);

static long calls;
static int was_refused;

static void tell(char byte) { syscall(SYS_write, TOLD, &byte, 1); }

// The words of FAULT behind this name, or none.
static const char *behind(const char *name) {
  const char *fault = getenv("FAULT");
  size_t length = strlen(name);
  return fault && !strncmp(fault, name, length) && fault[length] == ':' ? fault + length + 1 : NULL;
}

static int refuses(const char *name) {
  const char *words = behind(name);
  char *rest;
  if (!words || strtol(words, &rest, 10) != ++calls)
    return 0;
  was_refused = 1;
  tell('R');
  errno = atoi(rest + 1);
  return 1;
}

void *malloc(size_t size) { return refuses("memory") ? NULL : __libc_malloc(size); }

void *realloc(void *old, size_t size) { return refuses("memory") ? NULL : __libc_realloc(old, size); }

static long pass(const char *name, long a, long b, long c, long d, long e, long f) {
  call *next = (call *)dlsym(RTLD_NEXT, name);
  const char *words = behind(name);
  if (!strcmp(name, "write") && was_refused && a != NOTES)
    tell('W');
  if (refuses(name))
    return strcmp(name, "realpath") ? -1 : 0;
  int moves_bytes = !strcmp(name, "read") || !strcmp(name, "write");
  return next(a, b, words && *words == '0' && moves_bytes && c > 1 ? 1 : c, d, e, f);
}

// Each call of the system that the program makes.
#define PASSED(name) \
  long passed_##name(long a, long b, long c, long d, long e, long f) __asm__(#name); \
  long passed_##name(long a, long b, long c, long d, long e, long f) { return pass(#name, a, b, c, d, e, f); }

PASSED(read)
PASSED(write)
PASSED(open)
PASSED(close)
PASSED(statx)
PASSED(realpath)
PASSED(lseek)
PASSED(fchmod)
PASSED(fsync)
PASSED(fdatasync)
PASSED(ftruncate)
PASSED(flock)
PASSED(rename)
PASSED(unlink)
PASSED(getentropy)
