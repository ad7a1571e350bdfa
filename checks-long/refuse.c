/* A library to be loaded ahead of the C library. It refuses one allocation of the process: that of the number in
   the variable REFUSED, where the first is 1, and makes the file that MARK names when it does. */
#include <errno.h>
#include <fcntl.h>
#include <stdatomic.h>
#include <stddef.h>
#include <stdlib.h>
#include <unistd.h>

void *__libc_malloc(size_t size);
void *__libc_calloc(size_t count, size_t size);
void *__libc_realloc(void *old, size_t size);
void *__libc_memalign(size_t alignment, size_t size);

static atomic_long left = -1;
static const char *mark;

__attribute__((constructor)) static void begin(void) {
  const char *number = getenv("REFUSED");
  mark = getenv("MARK");
  if (number != NULL && mark != NULL)
    atomic_store(&left, atol(number));
}

/* Whether this allocation is the one. */
static int refused(void) {
  if (atomic_load(&left) <= 0 || atomic_fetch_sub(&left, 1) != 1)
    return 0;
  int made = open(mark, O_CREAT | O_WRONLY, 0600);
  if (made >= 0)
    close(made);
  errno = ENOMEM;
  return 1;
}

void *malloc(size_t size) { return refused() ? NULL : __libc_malloc(size); }

void *calloc(size_t count, size_t size) { return refused() ? NULL : __libc_calloc(count, size); }

void *realloc(void *old, size_t size) { return refused() ? NULL : __libc_realloc(old, size); }

void *aligned_alloc(size_t alignment, size_t size) { return refused() ? NULL : __libc_memalign(alignment, size); }

int posix_memalign(void **made, size_t alignment, size_t size) {
  if (refused())
    return ENOMEM;
  void *memory = __libc_memalign(alignment, size);
  if (memory == NULL)
    return ENOMEM;
  *made = memory;
  return 0;
}
