/* A library to be loaded before a program (LD_PRELOAD). It counts the program's calls of four kinds, and makes one of them fail:
   call number FAIL_AT, from 1, of the kind FAIL_KIND, which is malloc, read, write or open. The file FAIL_COUNTS has room for
   four numbers of eight bytes; there the calls of each kind are counted, in this order. */
#define _GNU_SOURCE
#include <dlfcn.h>
#include <errno.h>
#include <fcntl.h>
#include <stdarg.h>
#include <stdlib.h>
#include <string.h>
#include <sys/mman.h>
#include <sys/types.h>
#include <sys/uio.h>
#include <unistd.h>

enum { MALLOC, READ, WRITE, OPEN, KINDS };
static const char *names[KINDS] = {"malloc", "read", "write", "open"};
static long unshared[KINDS], *seen = unshared, at = -1;
static int kind = -1, is_ready = 0;

static void *(*real_malloc)(size_t), *(*real_realloc)(void *, size_t);
static void *(*real_aligned)(size_t, size_t);
static int (*real_memalign)(void **, size_t, size_t);
static ssize_t (*real_read)(int, void *, size_t), (*real_write)(int, const void *, size_t);
static ssize_t (*real_pread)(int, void *, size_t, off_t), (*real_pwrite)(int, const void *, size_t, off_t);
static ssize_t (*real_writev)(int, const struct iovec *, int);
static int (*real_open)(const char *, int, ...), (*real_openat)(int, const char *, int, ...);

__attribute__((constructor)) static void begin(void) {
  real_malloc = dlsym(RTLD_NEXT, "malloc"), real_realloc = dlsym(RTLD_NEXT, "realloc");
  real_aligned = dlsym(RTLD_NEXT, "aligned_alloc"), real_memalign = dlsym(RTLD_NEXT, "posix_memalign");
  real_read = dlsym(RTLD_NEXT, "read"), real_write = dlsym(RTLD_NEXT, "write");
  real_pread = dlsym(RTLD_NEXT, "pread"), real_pwrite = dlsym(RTLD_NEXT, "pwrite");
  real_writev = dlsym(RTLD_NEXT, "writev");
  real_open = dlsym(RTLD_NEXT, "open"), real_openat = dlsym(RTLD_NEXT, "openat");
  const char *counts = getenv("FAIL_COUNTS"), *failing = getenv("FAIL_KIND"), *number = getenv("FAIL_AT");
  if (counts) {
    int file = real_open(counts, O_RDWR);
    void *room = file < 0 ? MAP_FAILED : mmap(0, sizeof unshared, PROT_READ | PROT_WRITE, MAP_SHARED, file, 0);
    if (room != MAP_FAILED) seen = room;
    if (file >= 0) close(file);
  }
  if (failing && number) {
    at = atol(number);
    for (int k = 0; k < KINDS; k++)
      if (!strcmp(names[k], failing)) kind = k;
  }
  is_ready = 1;
}

static int fails(int k) { return is_ready && ++seen[k] == at && k == kind; }

void *malloc(size_t n) {
  if (!real_malloc) real_malloc = dlsym(RTLD_NEXT, "malloc");
  if (fails(MALLOC)) { errno = ENOMEM; return 0; }
  return real_malloc(n);
}
void *realloc(void *p, size_t n) {
  if (!real_realloc) real_realloc = dlsym(RTLD_NEXT, "realloc");
  if (fails(MALLOC)) { errno = ENOMEM; return 0; }
  return real_realloc(p, n);
}
void *aligned_alloc(size_t a, size_t n) {
  if (fails(MALLOC)) { errno = ENOMEM; return 0; }
  return real_aligned(a, n);
}
int posix_memalign(void **p, size_t a, size_t n) { return fails(MALLOC) ? ENOMEM : real_memalign(p, a, n); }

static ssize_t broken(int error) { errno = error; return -1; }
ssize_t read(int f, void *b, size_t n) { return fails(READ) ? broken(EIO) : real_read(f, b, n); }
ssize_t pread(int f, void *b, size_t n, off_t o) { return fails(READ) ? broken(EIO) : real_pread(f, b, n, o); }
ssize_t pread64(int f, void *b, size_t n, off_t o) { return pread(f, b, n, o); }
ssize_t write(int f, const void *b, size_t n) { return fails(WRITE) ? broken(ENOSPC) : real_write(f, b, n); }
ssize_t writev(int f, const struct iovec *v, int n) { return fails(WRITE) ? broken(ENOSPC) : real_writev(f, v, n); }
ssize_t pwrite(int f, const void *b, size_t n, off_t o) { return fails(WRITE) ? broken(ENOSPC) : real_pwrite(f, b, n, o); }
ssize_t pwrite64(int f, const void *b, size_t n, off_t o) { return pwrite(f, b, n, o); }

static int mode_of(int flags, va_list *a) { return flags & O_CREAT ? va_arg(*a, int) : 0; }
#define MODE_AFTER(flags) \
  va_list rest; \
  va_start(rest, flags); \
  int mode = mode_of(flags, &rest); \
  va_end(rest);
int open(const char *p, int flags, ...) {
  MODE_AFTER(flags)
  return fails(OPEN) ? (int)broken(EACCES) : real_open(p, flags, mode);
}
int open64(const char *p, int flags, ...) {
  MODE_AFTER(flags)
  return open(p, flags | O_LARGEFILE, mode);
}
int openat(int d, const char *p, int flags, ...) {
  MODE_AFTER(flags)
  return fails(OPEN) ? (int)broken(EACCES) : real_openat(d, p, flags, mode);
}
int openat64(int d, const char *p, int flags, ...) {
  MODE_AFTER(flags)
  return openat(d, p, flags | O_LARGEFILE, mode);
}
