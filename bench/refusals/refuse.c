/* Counts the calls by which a program asks the C library for memory, and refuses some of them. Loaded before the C library.

   COUNTED names a file of eight bytes that holds the count, also after the program has ended. REFUSED is the number of the call
   that is refused, from 1; 0 or none refuses no call. With ALL_LATER the later ones are refused too. A refused call answers NULL
   and changes nothing; `realloc` counts as one call whether it moves its bytes or not. */

#include <errno.h>
#include <fcntl.h>
#include <stdlib.h>
#include <sys/mman.h>
#include <unistd.h>

void *__libc_malloc(size_t size);
void *__libc_calloc(size_t many, size_t size);
void *__libc_realloc(void *old, size_t size);
void *__libc_memalign(size_t alignment, size_t size);

static unsigned long long *count;
static unsigned long long refused;
static int all_later;

/* Calls before this one are those of the loader, and are not counted. */
__attribute__((constructor)) static void begin(void) {
    const char *name = getenv("COUNTED");
    const char *number = getenv("REFUSED");
    int file = name ? open(name, O_RDWR | O_CLOEXEC) : -1;
    if (file < 0) {
        return;
    }
    void *page = mmap(NULL, sizeof *count, PROT_READ | PROT_WRITE, MAP_SHARED, file, 0);
    close(file);
    if (page == MAP_FAILED) {
        return;
    }
    refused = number ? strtoull(number, NULL, 10) : 0;
    all_later = getenv("ALL_LATER") != NULL;
    count = page;
}

static int granted(void) {
    if (!count) {
        return 1;
    }
    ++*count;
    if (refused && (*count == refused || (all_later && *count > refused))) {
        errno = ENOMEM;
        return 0;
    }
    return 1;
}

void *malloc(size_t size) {
    return granted() ? __libc_malloc(size) : NULL;
}

void *calloc(size_t many, size_t size) {
    return granted() ? __libc_calloc(many, size) : NULL;
}

void *realloc(void *old, size_t size) {
    return granted() ? __libc_realloc(old, size) : NULL;
}

void *reallocarray(void *old, size_t many, size_t size) {
    size_t bytes;
    if (__builtin_mul_overflow(many, size, &bytes)) {
        errno = ENOMEM;
        return NULL;
    }
    return realloc(old, bytes);
}

void *memalign(size_t alignment, size_t size) {
    return granted() ? __libc_memalign(alignment, size) : NULL;
}

void *aligned_alloc(size_t alignment, size_t size) {
    return memalign(alignment, size);
}

int posix_memalign(void **out, size_t alignment, size_t size) {
    void *bytes = memalign(alignment, size);
    if (!bytes) {
        return ENOMEM;
    }
    *out = bytes;
    return 0;
}
