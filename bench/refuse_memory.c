/* For LD_PRELOAD, see refuse_memory.py: refuses the allocation whose number the environment's word REFUSE gives, counted
   from 1, and writes the size of each that is asked for as a line to file descriptor 3. */
#include <errno.h>
#include <stddef.h>
#include <stdlib.h>
#include <unistd.h>

void *__libc_malloc(size_t size);
void *__libc_calloc(size_t count, size_t size);
void *__libc_realloc(void *old, size_t size);
void *__libc_memalign(size_t alignment, size_t size);

static unsigned long asked, refused;

__attribute__((constructor)) static void begin(void) {
  const char *number = getenv("REFUSE");
  refused = number ? strtoul(number, NULL, 10) : 0;
}

static void tell(size_t size) {
  char line[24];
  size_t at = sizeof line;
  line[--at] = '\n';
  do line[--at] = '0' + size % 10; while (size /= 10);
  if (write(3, line + at, sizeof line - at) < 0) _exit(99);
}

static int is_refused(size_t size) {
  tell(size);
  asked++;
  if (asked == refused) errno = ENOMEM;
  return asked == refused;
}

void *malloc(size_t size) { return is_refused(size) ? NULL : __libc_malloc(size); }

void *calloc(size_t count, size_t size) { return is_refused(count * size) ? NULL : __libc_calloc(count, size); }

void *realloc(void *old, size_t size) { return is_refused(size) ? NULL : __libc_realloc(old, size); }

void *memalign(size_t alignment, size_t size) { return is_refused(size) ? NULL : __libc_memalign(alignment, size); }

void *aligned_alloc(size_t alignment, size_t size) { return memalign(alignment, size); }

int posix_memalign(void **made, size_t alignment, size_t size) {
  *made = memalign(alignment, size);
  return *made ? 0 : ENOMEM;
}
