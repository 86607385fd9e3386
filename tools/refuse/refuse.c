/* Preloaded under a program, refuses the allocation with the number REFUSE_AT, and with REFUSE_FROM set each later one too.
   The number of allocations so far stands in the first eight bytes of the file REFUSE_COUNT, from where this is loaded. */
#include <errno.h>
#include <fcntl.h>
#include <stdatomic.h>
#include <stddef.h>
#include <stdlib.h>
#include <sys/mman.h>

void *__libc_malloc(size_t), *__libc_calloc(size_t, size_t), *__libc_realloc(void *, size_t), *__libc_memalign(size_t, size_t);

static _Atomic long *count;
static long at;
static int from;

__attribute__((constructor)) static void begin(void) {
  const char *file = getenv("REFUSE_COUNT"), *number = getenv("REFUSE_AT");
  int opened = file ? open(file, O_RDWR) : -1;
  void *mapped = opened < 0 ? MAP_FAILED : mmap(NULL, sizeof *count, PROT_READ | PROT_WRITE, MAP_SHARED, opened, 0);
  at = number ? atol(number) : 0;
  from = getenv("REFUSE_FROM") != NULL;
  if (mapped == MAP_FAILED) _Exit(125);
  count = mapped;
}

static int refused(void) {
  long number = count ? atomic_fetch_add(count, 1) + 1 : 0;
  int is = at > 0 && (number == at || (from && number > at));
  if (is) errno = ENOMEM;
  return is;
}

void *malloc(size_t size) { return refused() ? NULL : __libc_malloc(size); }
void *calloc(size_t items, size_t size) { return refused() ? NULL : __libc_calloc(items, size); }
void *realloc(void *old, size_t size) { return refused() ? NULL : __libc_realloc(old, size); }
void *aligned_alloc(size_t alignment, size_t size) { return refused() ? NULL : __libc_memalign(alignment, size); }

int posix_memalign(void **given, size_t alignment, size_t size) {
  void *made = refused() ? NULL : __libc_memalign(alignment, size);
  if (made) *given = made;
  return made ? 0 : ENOMEM;
}
