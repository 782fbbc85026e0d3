/* A library that is loaded before a program, and counts what memory it asks for. At the program's end the file
   COUNTS_FILE has a line: how often memory was asked for, how many bytes in all, the most bytes that were held at once,
   and the most that the process had resident, in KiB (VmHWM). */
#define _GNU_SOURCE
#include <errno.h>
#include <fcntl.h>
#include <malloc.h>
#include <stdio.h>
#include <stdlib.h>
#include <string.h>
#include <sys/syscall.h>
#include <unistd.h>

void *__libc_malloc(size_t size);
void *__libc_calloc(size_t count, size_t size);
void *__libc_realloc(void *old, size_t size);
void *__libc_memalign(size_t alignment, size_t size);
void __libc_free(void *old);

static unsigned long asked, bytes, held, most_held;

/* memory of this size was asked for, and was given here or not at all */
static void *count(void *given, size_t size) {
  __atomic_add_fetch(&asked, 1, __ATOMIC_RELAXED);
  __atomic_add_fetch(&bytes, size, __ATOMIC_RELAXED);
  unsigned long now = __atomic_add_fetch(&held, malloc_usable_size(given), __ATOMIC_RELAXED);
  unsigned long most = __atomic_load_n(&most_held, __ATOMIC_RELAXED);
  while (now > most && !__atomic_compare_exchange_n(&most_held, &most, now, 1, __ATOMIC_RELAXED, __ATOMIC_RELAXED));
  return given;
}

static void let_go(size_t size) { __atomic_sub_fetch(&held, size, __ATOMIC_RELAXED); }

void *malloc(size_t size) { return count(__libc_malloc(size), size); }

void *calloc(size_t number, size_t size) { return count(__libc_calloc(number, size), number * size); }

void *realloc(void *old, size_t size) {
  size_t before = malloc_usable_size(old);
  void *given = __libc_realloc(old, size);
  if (given) let_go(before);
  return count(given, size);
}

void *memalign(size_t alignment, size_t size) { return count(__libc_memalign(alignment, size), size); }

void *aligned_alloc(size_t alignment, size_t size) { return memalign(alignment, size); }

int posix_memalign(void **given, size_t alignment, size_t size) {
  void *memory = memalign(alignment, size);
  if (!memory) return ENOMEM;
  *given = memory;
  return 0;
}

void free(void *old) {
  let_go(malloc_usable_size(old));
  __libc_free(old);
}

/* the most that was resident, in KiB, by what the system tells of the process */
static unsigned long most_resident(void) {
  char text[4096], *at;
  int file = open("/proc/self/status", O_RDONLY);
  ssize_t length = file < 0 ? -1 : read(file, text, sizeof text - 1);
  if (file >= 0) close(file);
  if (length < 0) return 0;
  text[length] = 0;
  at = strstr(text, "VmHWM:");
  return at ? strtoul(at + strlen("VmHWM:"), 0, 10) : 0;
}

static void tell(void) {
  const char *name = getenv("COUNTS_FILE");
  char line[100];
  int file = name ? open(name, O_WRONLY | O_CREAT | O_TRUNC, 0600) : -1;
  if (file < 0) return;
  int length = snprintf(line, sizeof line, "%lu %lu %lu %lu\n", asked, bytes, most_held, most_resident());
  syscall(SYS_write, file, line, (size_t)length);
}

/* the program ends by this call, so that no destructor runs */
void _exit(int status) {
  tell();
  syscall(SYS_exit_group, status);
  __builtin_unreachable();
}
