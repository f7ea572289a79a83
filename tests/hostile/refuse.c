// Refuses one request for memory of the program that it is loaded before: the one whose number stands in REFUSE_AT, counted from 1
// over malloc, calloc, realloc and aligned_alloc. Where it refuses one it makes the file that REFUSE_SAYS names. As the program ends it
// writes into the file that REFUSE_COUNTS names how many requests there were.
#include <errno.h>
#include <fcntl.h>
#include <stddef.h>
#include <stdio.h>
#include <stdlib.h>
#include <unistd.h>

extern void *__libc_malloc(size_t);
extern void *__libc_calloc(size_t, size_t);
extern void *__libc_realloc(void *, size_t);
extern void *__libc_memalign(size_t, size_t);

static long refused_at = -1;
static long count;

static int is_refused(void) {
    if (refused_at < 0) {
        const char *word = getenv("REFUSE_AT");
        refused_at = word ? atol(word) : 0;
    }
    if (++count != refused_at)
        return 0;
    const char *says = getenv("REFUSE_SAYS");
    if (says) {
        int file = open(says, O_CREAT | O_WRONLY, 0644);
        if (file >= 0)
            close(file);
    }
    errno = ENOMEM;
    return 1;
}

void *malloc(size_t size) { return is_refused() ? NULL : __libc_malloc(size); }

void *calloc(size_t many, size_t size) { return is_refused() ? NULL : __libc_calloc(many, size); }

void *realloc(void *old, size_t size) { return is_refused() ? NULL : __libc_realloc(old, size); }

void *aligned_alloc(size_t to, size_t size) { return is_refused() ? NULL : __libc_memalign(to, size); }

int posix_memalign(void **out, size_t to, size_t size) {
    if (is_refused())
        return ENOMEM;
    *out = __libc_memalign(to, size);
    return *out ? 0 : ENOMEM;
}

__attribute__((destructor)) static void write_count(void) {
    char text[24];
    long requests = count;
    const char *counts = getenv("REFUSE_COUNTS");
    int file = counts ? open(counts, O_CREAT | O_WRONLY | O_TRUNC, 0644) : -1;
    if (file < 0)
        return;
    int length = snprintf(text, sizeof text, "%ld", requests);
    if (write(file, text, (size_t)length) != length)
        _exit(99);
    close(file);
}
