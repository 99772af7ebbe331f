/* Refuses, fails or cuts short chosen calls of the program that it is loaded into by LD_PRELOAD, and counts all calls of the kind.
 *
 * FAULT_COUNTS names a file of five numbers of eight bytes, where the calls are counted: allocations, opens, reads, writes, and the
 * calls of the kind that were turned. FAULT_KIND is one of the words below; FAULT_FROM and FAULT_TO are the numbers of the first and the
 * last call of that kind that is turned, counted from 1. Calls are counted from the program's first one on, those of the loader are not.
 *
 *   alloc        an allocation, or one that grows, finds no memory
 *   open         a file cannot be opened (EACCES)
 *   read, write  a read or a write fails (EIO, ENOSPC)
 *   short-read, short-write  one that asks for several bytes moves one
 */
#define _GNU_SOURCE
#include <errno.h>
#include <fcntl.h>
#include <stdarg.h>
#include <stddef.h>
#include <stdint.h>
#include <stdlib.h>
#include <string.h>
#include <sys/mman.h>
#include <sys/syscall.h>
#include <sys/uio.h>
#include <unistd.h>

enum { ALLOC, OPEN, READ, WRITE, TURNED, COUNTS };

static const char *const words[] = {"alloc", "open", "read", "write", "short-read", "short-write"};

static _Atomic uint64_t *counts;
static int kind = -1;
static int cuts;
static uint64_t from = 1, to = 0;

extern void *__libc_malloc(size_t);
extern void *__libc_calloc(size_t, size_t);
extern void *__libc_realloc(void *, size_t);
extern void *__libc_memalign(size_t, size_t);

__attribute__((constructor)) static void begin(void) {
  const char *path = getenv("FAULT_COUNTS"), *word = getenv("FAULT_KIND");
  if (!path || !word) return;
  for (int at = 0; at < 6; at++)
    if (!strcmp(word, words[at])) {
      cuts = at > WRITE;
      kind = cuts ? at - 2 : at;
    }
  if (getenv("FAULT_FROM")) from = strtoull(getenv("FAULT_FROM"), 0, 10);
  if (getenv("FAULT_TO")) to = strtoull(getenv("FAULT_TO"), 0, 10);
  int file = (int)syscall(SYS_openat, AT_FDCWD, path, O_RDWR);
  void *shared = mmap(0, COUNTS * sizeof *counts, PROT_READ | PROT_WRITE, MAP_SHARED, file, 0);
  syscall(SYS_close, file);
  if (shared != MAP_FAILED) counts = shared;
}

/* Counts a call of the kind, and says whether it is one of those to be turned. */
static int is_turned(int which) {
  if (!counts) return 0;
  uint64_t number = ++counts[which];
  if (which != kind || number < from || number > to) return 0;
  ++counts[TURNED];
  return 1;
}

static int refuses(void) {
  if (!is_turned(ALLOC)) return 0;
  errno = ENOMEM;
  return 1;
}

void *malloc(size_t size) { return refuses() ? 0 : __libc_malloc(size); }
void *calloc(size_t count, size_t size) { return refuses() ? 0 : __libc_calloc(count, size); }
void *realloc(void *block, size_t size) { return refuses() ? 0 : __libc_realloc(block, size); }
void *memalign(size_t align, size_t size) { return refuses() ? 0 : __libc_memalign(align, size); }
void *aligned_alloc(size_t align, size_t size) { return refuses() ? 0 : __libc_memalign(align, size); }
int posix_memalign(void **block, size_t align, size_t size) {
  if (refuses() || !(*block = __libc_memalign(align, size))) return ENOMEM;
  return 0;
}

static int opened(int folder, const char *path, int flags, mode_t mode) {
  if (is_turned(OPEN)) {
    errno = EACCES;
    return -1;
  }
  return (int)syscall(SYS_openat, folder, path, flags, mode);
}

#define MODE(last)                                                \
  mode_t mode = 0;                                                \
  if ((flags & O_CREAT) || (flags & O_TMPFILE) == O_TMPFILE) {    \
    va_list rest;                                                 \
    va_start(rest, last);                                         \
    mode = va_arg(rest, mode_t);                                  \
    va_end(rest);                                                 \
  }

int open(const char *path, int flags, ...) {
  MODE(flags)
  return opened(AT_FDCWD, path, flags, mode);
}
int open64(const char *path, int flags, ...) {
  MODE(flags)
  return opened(AT_FDCWD, path, flags, mode);
}
int openat(int folder, const char *path, int flags, ...) {
  MODE(flags)
  return opened(folder, path, flags, mode);
}
int openat64(int folder, const char *path, int flags, ...) {
  MODE(flags)
  return opened(folder, path, flags, mode);
}

/* How many of the bytes are moved, or -1 for a call that fails. */
static ssize_t moved(int which, size_t size) {
  if (!is_turned(which)) return (ssize_t)size;
  if (cuts) return size > 1 ? 1 : (ssize_t)size;
  errno = which == READ ? EIO : ENOSPC;
  return -1;
}

ssize_t read(int file, void *into, size_t size) {
  ssize_t some = moved(READ, size);
  return some < 0 ? -1 : syscall(SYS_read, file, into, some);
}
ssize_t pread(int file, void *into, size_t size, off_t at) {
  ssize_t some = moved(READ, size);
  return some < 0 ? -1 : syscall(SYS_pread64, file, into, some, at);
}
ssize_t write(int file, const void *piece, size_t size) {
  ssize_t some = moved(WRITE, size);
  return some < 0 ? -1 : syscall(SYS_write, file, piece, some);
}
ssize_t writev(int file, const struct iovec *pieces, int count) {
  size_t size = 0;
  int first = -1;
  for (int at = 0; at < count; at++) {
    if (first < 0 && pieces[at].iov_len) first = at;
    size += pieces[at].iov_len;
  }
  ssize_t some = moved(WRITE, size);
  if (some < 0) return -1;
  if ((size_t)some < size) return syscall(SYS_write, file, pieces[first].iov_base, some);
  return syscall(SYS_writev, file, pieces, count);
}
