/* Makes a call of a host late, to try what happens in between: with LATE=bind each bind waits a quarter of a second, and with LATE=poll a SIGTERM
 * comes right before the first poll. Loaded before the C library (LD_PRELOAD). */
#define _GNU_SOURCE
#include <dlfcn.h>
#include <poll.h>
#include <signal.h>
#include <stdlib.h>
#include <string.h>
#include <sys/socket.h>
#include <unistd.h>

/* Whether the call of this name is to be late. */
static int is_late(const char *name)
{
    const char *late = getenv("LATE");
    return late != NULL && strcmp(late, name) == 0;
}

int bind(int fd, const struct sockaddr *address, socklen_t length)
{
    int (*next)(int, const struct sockaddr *, socklen_t) = (int (*)(int, const struct sockaddr *, socklen_t))dlsym(RTLD_NEXT, "bind");
    if (is_late("bind"))
        usleep(250000);
    return next(fd, address, length);
}

int poll(struct pollfd *waits, nfds_t count, int timeout)
{
    static int polls;
    int (*next)(struct pollfd *, nfds_t, int) = (int (*)(struct pollfd *, nfds_t, int))dlsym(RTLD_NEXT, "poll");
    if (polls++ == 0 && is_late("poll"))
        raise(SIGTERM);
    return next(waits, count, timeout);
}
