/* A disk that is full: the files that a program opens take LEFT bytes in all. The first write beyond them fails since there is no space, and each
 * later one by another error. At the end it writes how many bytes they took, and how many writes there were, to the file that COUNT names.
 * Loaded before the C library (LD_PRELOAD). */
#define _GNU_SOURCE
#include <errno.h>
#include <stdio.h>
#include <stdlib.h>
#include <sys/syscall.h>
#include <sys/uio.h>
#include <unistd.h>

static size_t left = (size_t)-1, taken, writes;
static int has_failed;

ssize_t write(int file, const void *bytes, size_t count) {
    if (file <= STDERR_FILENO) return syscall(SYS_write, file, bytes, count);
    writes++;
    if (count > 0 && left == 0) {
        errno = has_failed ? EIO : ENOSPC;
        has_failed = 1;
        return -1;
    }
    ssize_t done = syscall(SYS_write, file, bytes, count < left ? count : left);
    if (done > 0) {
        left -= (size_t)done;
        taken += (size_t)done;
    }
    return done;
}

/* Takes bytes of the first part alone that has any. */
ssize_t writev(int file, const struct iovec *parts, int count) {
    for (int k = 0; k < count; k++)
        if (parts[k].iov_len > 0) return write(file, parts[k].iov_base, parts[k].iov_len);
    return 0;
}

__attribute__((constructor)) static void begin(void) {
    const char *number = getenv("LEFT");
    if (number != NULL) left = strtoul(number, NULL, 10);
}

__attribute__((destructor)) static void end(void) {
    const char *name = getenv("COUNT");
    FILE *file = name == NULL ? NULL : fopen(name, "w");
    if (file == NULL) return;
    fprintf(file, "%zu %zu\n", taken, writes);
    fclose(file);
}
