/* What the signals of a live host do: SIGUSR1 asks for the counts, SIGINT and SIGTERM end it. Its loop reads both flags. A loop that waits for
   events waits for `signals_come` too: a signal that comes just before the wait would else not end it. */
#ifndef SIGNALS_H
#define SIGNALS_H

#include <errno.h>
#include <signal.h>
#include <stdint.h>
#include <unistd.h>

static volatile sig_atomic_t is_stopped, is_asked;
static int signals_come = -1; /* an eventfd that counts the signals, if the loop waits */

/* Ends a wait, if the loop waits. */
static inline void note_signal(void)
{
    uint64_t one = 1;
    int before = errno;
    ssize_t written = signals_come < 0 ? 0 : write(signals_come, &one, sizeof one);
    (void)written;
    errno = before;
}

/* Takes the signals that were noted. */
static inline void take_signals(void)
{
    uint64_t count;
    ssize_t taken = read(signals_come, &count, sizeof count);
    (void)taken;
}

static void on_stop(int number)
{
    (void)number;
    is_stopped = 1;
    note_signal();
}

static void on_ask(int number)
{
    (void)number;
    is_asked = 1;
    note_signal();
}

#endif
