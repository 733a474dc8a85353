/* pieces IN OUT: takes 14 bytes off each record of a classic capture, which it reads and writes in large pieces; for bench/one.py. */
#include "pieces.h"

static uint8_t piece[HEAD + MAX_RECORD + PIECE];

/* Handles the whole records of a piece from `at` on; returns where the first is that is not whole, or SIZE_MAX where a write fails. */
static size_t all_put(int out, size_t at, size_t end)
{
    size_t length;
    while ((length = whole(piece + at, end - at)) > 0) {
        if (!is_put(out, piece + at))
            return SIZE_MAX;
        at += length;
    }
    return at;
}

int main(int argc, char **argv)
{
    if (argc != 3)
        return 2;
    int in = open(argv[1], O_RDONLY), out = open(argv[2], O_WRONLY | O_CREAT | O_TRUNC, 0666);
    if (in < 0 || out < 0 || read(in, collected, FILE_HEAD) != FILE_HEAD)
        return 2;
    used = FILE_HEAD;
    size_t left = 0;
    ssize_t got;
    while (left + PIECE <= sizeof piece && (got = read(in, piece + left, PIECE)) > 0) {
        size_t end = left + got, at = all_put(out, 0, end);
        if (at == SIZE_MAX)
            return 3;
        left = end - at;
        memmove(piece, piece + at, left);
    }
    return left == 0 && is_written(out) && close(out) == 0 ? 0 : 3;
}
