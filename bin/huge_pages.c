// Put before the C library (LD_PRELOAD), asks the kernel for huge pages wherever a process takes a large room of its
// own. Many systems give them to those alone that ask (`madvise` in /sys/kernel/mm/transparent_hugepage/enabled), and
// the prover's allocator doesn't.
#define _GNU_SOURCE
#include <errno.h>
#include <sys/mman.h>
#include <sys/syscall.h>
#include <unistd.h>

enum { HUGE = 2 << 20 };

void *mmap(void *at, size_t length, int protection, int flags, int file, off_t from) {
  void *room = (void *)syscall(SYS_mmap, at, length, protection, flags, file, from);
  int fault = errno;
  if (room != MAP_FAILED && (flags & MAP_ANONYMOUS) && length >= HUGE)
    madvise(room, length, MADV_HUGEPAGE);
  errno = fault;
  return room;
}

void *mmap64(void *at, size_t length, int protection, int flags, int file, off_t from) {
  return mmap(at, length, protection, flags, file, from);
}
