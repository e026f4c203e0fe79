// A library for LD_PRELOAD that refuses growths of a program. A growth is a call of malloc, calloc or realloc from
// outside the C library. The variable REFUSE has the number of the growth to refuse, from 1 on. If REFUSE_ON is set,
// all later growths are refused too. At the end it writes to the file TELL the number of growths, the number refused,
// and the number of blocks that were not freed.
#define _GNU_SOURCE
#include <errno.h>
#include <stdio.h>
#include <stdlib.h>

extern void *__libc_malloc(size_t);
extern void *__libc_calloc(size_t, size_t);
extern void *__libc_realloc(void *, size_t);
extern void __libc_free(void *);

static long at = -1, count, refused, blocks;
static int is_read, is_on;

static int is_refused(void) {
    if (!is_read) {
        const char *word = getenv("REFUSE");
        is_read = 1;
        at = word ? atol(word) : -1;
        is_on = getenv("REFUSE_ON") != NULL;
    }
    count++;
    if (at < 1 || count < at || (count > at && !is_on))
        return 0;
    refused++;
    errno = ENOMEM;
    return 1;
}

static void *taken(void *block) {
    blocks += block != NULL;
    return block;
}

void *malloc(size_t size) { return is_refused() ? NULL : taken(__libc_malloc(size)); }
void *calloc(size_t n, size_t size) { return is_refused() ? NULL : taken(__libc_calloc(n, size)); }
void *realloc(void *old, size_t size) { return is_refused() ? NULL : old ? __libc_realloc(old, size) : taken(__libc_malloc(size)); }

void free(void *block) {
    blocks -= block != NULL;
    __libc_free(block);
}

__attribute__((destructor)) static void tell(void) {
    const char *path = getenv("TELL");
    long counted = count, failed = refused, left;
    FILE *to;
    at = -1;
    // frees the buffers of the C library, which are not the program's
    fclose(stdin);
    fclose(stdout);
    left = blocks;
    if (path && (to = fopen(path, "w"))) {
        fprintf(to, "%ld %ld %ld\n", counted, failed, left);
        fclose(to);
    }
}
