/* A library that is loaded before a program: malloc and realloc answer NULL, or read and write answer EIO, at the call
   of a chosen number. FAILING_KIND is `allocation`, `read` or `write`, and FAILING_CALL the number, from 1. Reads and
   writes are of one byte. At the program's end the numbers of its calls of each kind stand in the file CALLS_FILE. */
#define _GNU_SOURCE
#include <errno.h>
#include <fcntl.h>
#include <stdio.h>
#include <stdlib.h>
#include <string.h>
#include <sys/syscall.h>
#include <unistd.h>

void *__libc_malloc(size_t size);
void *__libc_realloc(void *old, size_t size);

static const char *kinds[] = {"allocation", "read", "write"};
static unsigned long calls[3];

/* counts a call, and says whether it is the one that fails */
static int fails(int kind) {
  const char *failing = getenv("FAILING_KIND"), *number = getenv("FAILING_CALL");
  unsigned long call = __atomic_add_fetch(&calls[kind], 1, __ATOMIC_RELAXED);
  return failing && number && !strcmp(failing, kinds[kind]) && strtoul(number, 0, 10) == call;
}

void *malloc(size_t size) {
  if (fails(0)) { errno = ENOMEM; return 0; }
  return __libc_malloc(size);
}

void *realloc(void *old, size_t size) {
  if (fails(0)) { errno = ENOMEM; return 0; }
  return __libc_realloc(old, size);
}

ssize_t read(int file, void *bytes, size_t count) {
  if (fails(1)) { errno = EIO; return -1; }
  return syscall(SYS_read, file, bytes, count ? 1 : 0);
}

ssize_t write(int file, const void *bytes, size_t count) {
  if (fails(2)) { errno = EIO; return -1; }
  return syscall(SYS_write, file, bytes, count ? 1 : 0);
}

ssize_t __write(int file, const void *bytes, size_t count) { return write(file, bytes, count); }

static void tell(void) {
  const char *name = getenv("CALLS_FILE");
  char line[100];
  int file = name ? open(name, O_WRONLY | O_CREAT | O_TRUNC, 0600) : -1;
  if (file < 0) return;
  int length = snprintf(line, sizeof line, "%lu %lu %lu", calls[0], calls[1], calls[2]);
  syscall(SYS_write, file, line, (size_t)length);
}

/* a program of tests ends by a return */
__attribute__((destructor)) static void tell_at_end(void) { tell(); }

/* the program itself ends by this call, so that no destructor runs */
void _exit(int status) {
  tell();
  syscall(SYS_exit_group, status);
  __builtin_unreachable();
}
