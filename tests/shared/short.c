/* Lets each read and write of a program take at most MOST bytes, and its standard streams fail. The first read of standard input takes at most
 * FIRST bytes. Standard input fails after INPUT bytes, and standard output after OUTPUT bytes, with the error of the number ERROR (5, EIO). A call
 * after such a failure ends the program with status 99, or with AGAIN goes on as if nothing had happened. What is not set changes nothing. Loaded
 * before the C library (LD_PRELOAD). */
#define _GNU_SOURCE
#include <errno.h>
#include <stdlib.h>
#include <sys/syscall.h>
#include <sys/uio.h>
#include <unistd.h>

static size_t most = (size_t)-1, first = (size_t)-1;
/* How many bytes standard input still gives, and standard output still takes. */
static size_t left[2] = {(size_t)-1, (size_t)-1};
static int has_failed[2], goes_on, error = EIO;

static size_t at_most(size_t count, size_t limit) { return count < limit ? count : limit; }

/* How many bytes of this many a call on a stream may move: none if it fails. */
static size_t allowed(int file, size_t count)
{
    if (file > 1 || count == 0) return at_most(count, most);
    if (has_failed[file]) _exit(99);
    size_t now = at_most(at_most(count, most), left[file]);
    if (now == 0 && goes_on) left[file] = (size_t)-1;
    has_failed[file] = now == 0 && !goes_on;
    return now;
}

/* Notes what a call on a stream moved. */
static ssize_t moved(int file, ssize_t count)
{
    if ((file == 0 || file == 1) && count > 0 && left[file] != (size_t)-1) left[file] -= (size_t)count;
    return count;
}

ssize_t read(int file, void *bytes, size_t count)
{
    size_t now = allowed(file, count);
    if (file == 0) {
        now = at_most(now, first);
        if (count > 0) first = (size_t)-1;
    }
    if (count > 0 && now == 0) return errno = error, -1;
    return moved(file, syscall(SYS_read, file, bytes, now));
}

ssize_t write(int file, const void *bytes, size_t count)
{
    size_t now = allowed(file, count);
    if (count > 0 && now == 0) return errno = error, -1;
    return moved(file, syscall(SYS_write, file, bytes, now));
}

/* Takes bytes of the first part alone that has any. */
ssize_t writev(int file, const struct iovec *parts, int count)
{
    for (int k = 0; k < count; k++)
        if (parts[k].iov_len > 0) return write(file, parts[k].iov_base, parts[k].iov_len);
    return 0;
}

ssize_t readv(int file, const struct iovec *parts, int count)
{
    for (int k = 0; k < count; k++)
        if (parts[k].iov_len > 0) return read(file, parts[k].iov_base, parts[k].iov_len);
    return 0;
}

/* The number that a variable has, or this one. */
static size_t number_of(const char *name, size_t otherwise)
{
    const char *number = getenv(name);
    return number == NULL ? otherwise : strtoul(number, NULL, 10);
}

__attribute__((constructor)) static void begin(void)
{
    most = number_of("MOST", most);
    first = number_of("FIRST", first);
    left[0] = number_of("INPUT", left[0]);
    left[1] = number_of("OUTPUT", left[1]);
    goes_on = getenv("AGAIN") != NULL;
    error = (int)number_of("ERROR", EIO);
}
