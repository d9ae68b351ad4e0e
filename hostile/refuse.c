/* An allocator that refuses one allocation: preload it, and set REFUSE_AT to its number, from 1; 0 refuses none.
   At the end the number of allocations goes to the file that REFUSE_COUNT names. */
#define _GNU_SOURCE
#include <dlfcn.h>
#include <errno.h>
#include <fcntl.h>
#include <stdio.h>
#include <stdlib.h>
#include <unistd.h>

static unsigned long calls, refuse_at;
static void *(*real_malloc)(size_t);
static void *(*real_calloc)(size_t, size_t);
static void *(*real_realloc)(void *, size_t);
static void *(*real_aligned)(size_t, size_t);
/* dlsym may ask for memory before the real functions are known */
static char early[65536];
static size_t early_used;

static void *from_early(size_t size) {
    size_t at = (early_used + 15) & ~(size_t)15;
    if (size > sizeof early - at) return NULL;
    early_used = at + size;
    return early + at;
}

__attribute__((constructor)) static void find(void) {
    const char *said = getenv("REFUSE_AT");
    refuse_at = said ? strtoul(said, NULL, 10) : 0;
    real_calloc = dlsym(RTLD_NEXT, "calloc");
    real_realloc = dlsym(RTLD_NEXT, "realloc");
    real_aligned = dlsym(RTLD_NEXT, "aligned_alloc");
    real_malloc = dlsym(RTLD_NEXT, "malloc");
}

__attribute__((destructor)) static void tell(void) {
    const char *path = getenv("REFUSE_COUNT");
    char text[32];
    int file, length;
    if (!path) return;
    file = open(path, O_WRONLY | O_CREAT | O_TRUNC, 0600);
    length = snprintf(text, sizeof text, "%lu\n", calls);
    if (file >= 0 && write(file, text, (size_t)length) == length) close(file);
}

static int is_refused(void) {
    calls++;
    if (calls != refuse_at) return 0;
    errno = ENOMEM;
    return 1;
}

void *malloc(size_t size) {
    if (!real_malloc) return from_early(size);
    return is_refused() ? NULL : real_malloc(size);
}

void *calloc(size_t count, size_t size) {
    if (!real_calloc) return from_early(count * size);
    return is_refused() ? NULL : real_calloc(count, size);
}

void *realloc(void *old, size_t size) {
    return is_refused() ? NULL : real_realloc(old, size);
}

void *aligned_alloc(size_t alignment, size_t size) {
    return is_refused() ? NULL : real_aligned(alignment, size);
}

int posix_memalign(void **put, size_t alignment, size_t size) {
    void *made = aligned_alloc(alignment, size);
    if (!made) return ENOMEM;
    *put = made;
    return 0;
}
