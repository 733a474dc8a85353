/* Refuses one allocation of a program: that whose number is in REFUSE, counted from 1.
 * At the end it writes how many there were to the file that COUNT names, and how many bytes of them were not given back.
 * Loaded before the C library (LD_PRELOAD). */
#define _GNU_SOURCE
#include <errno.h>
#include <malloc.h>
#include <stddef.h>
#include <stdio.h>
#include <stdlib.h>

void *__libc_malloc(size_t size);
void *__libc_calloc(size_t count, size_t size);
void *__libc_realloc(void *old, size_t size);
void *__libc_memalign(size_t alignment, size_t size);
void __libc_free(void *old);

static unsigned long made, refused, kept;
static int started;

/* Whether the next allocation is given. What the C library takes before main is not counted. */
static int is_given(void) {
    if (!started || ++made != refused) return 1;
    errno = ENOMEM;
    return 0;
}

/* Counts the bytes of a block, if there is one. */
static void *taken(void *block) {
    if (started && block != NULL) kept += malloc_usable_size(block);
    return block;
}

/* Counts them as given back. What was taken before main and is given back after it counts as nothing. */
static void given_back(size_t size) {
    if (started) kept -= size < kept ? size : kept;
}

void *malloc(size_t size) { return is_given() ? taken(__libc_malloc(size)) : NULL; }
void *calloc(size_t count, size_t size) { return is_given() ? taken(__libc_calloc(count, size)) : NULL; }
void *memalign(size_t alignment, size_t size) { return is_given() ? taken(__libc_memalign(alignment, size)) : NULL; }

void *realloc(void *old, size_t size) {
    if (!is_given()) return NULL;
    size_t before = malloc_usable_size(old);
    void *block = __libc_realloc(old, size);
    if (block != NULL || size == 0) given_back(before);
    return taken(block);
}

void free(void *old) {
    given_back(malloc_usable_size(old));
    __libc_free(old);
}

void *aligned_alloc(size_t alignment, size_t size) { return memalign(alignment, size); }

int posix_memalign(void **out, size_t alignment, size_t size) {
    void *block = memalign(alignment, size);
    if (block == NULL) return ENOMEM;
    *out = block;
    return 0;
}

__attribute__((constructor)) static void begin(void) {
    const char *number = getenv("REFUSE");
    refused = number == NULL ? 0 : strtoul(number, NULL, 10);
    started = 1;
}

__attribute__((destructor)) static void end(void) {
    started = 0;
    const char *name = getenv("COUNT");
    FILE *file = name == NULL ? NULL : fopen(name, "w");
    if (file == NULL) return;
    fprintf(file, "%lu %lu\n", made, kept);
    fclose(file);
}
