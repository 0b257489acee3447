/* Preloaded by gate/refused: refuses request number REFUSED for memory, counted from 1 once the loader is done, and then writes
   a byte to the descriptor REFUSED_TO. */
#include <errno.h>
#include <stdatomic.h>
#include <stdlib.h>
#include <unistd.h>

void *__libc_malloc(size_t), *__libc_calloc(size_t, size_t), *__libc_realloc(void *, size_t), *__libc_memalign(size_t, size_t);

static atomic_long left;
static int told;

__attribute__((constructor)) static void begin(void) {
    told = atoi(getenv("REFUSED_TO"));
    left = atol(getenv("REFUSED"));
}

static int refuses(void) {
    if (atomic_fetch_sub(&left, 1) != 1) return 0;
    if (write(told, "1", 1) != 1) abort();
    errno = ENOMEM;
    return 1;
}

void *malloc(size_t size) { return refuses() ? NULL : __libc_malloc(size); }
void *calloc(size_t count, size_t size) { return refuses() ? NULL : __libc_calloc(count, size); }
void *realloc(void *old, size_t size) { return refuses() ? NULL : __libc_realloc(old, size); }
void *aligned_alloc(size_t align, size_t size) { return refuses() ? NULL : __libc_memalign(align, size); }
int posix_memalign(void **at, size_t align, size_t size) { return (*at = aligned_alloc(align, size)) ? 0 : ENOMEM; }
