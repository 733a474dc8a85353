/* mapped IN OUT: takes 14 bytes off each record of a classic capture, which it maps, and writes large pieces; for bench/one.py. */
#include <sys/mman.h>
#include <sys/stat.h>

#include "pieces.h"

int main(int argc, char **argv)
{
    struct stat about;
    if (argc != 3)
        return 2;
    int in = open(argv[1], O_RDONLY), out = open(argv[2], O_WRONLY | O_CREAT | O_TRUNC, 0666);
    if (in < 0 || out < 0 || fstat(in, &about) != 0 || about.st_size < FILE_HEAD)
        return 2;
    const uint8_t *bytes = mmap(NULL, about.st_size, PROT_READ, MAP_PRIVATE | MAP_POPULATE, in, 0);
    if (bytes == MAP_FAILED)
        return 2;
    size_t at = FILE_HEAD, size = about.st_size, length;
    memcpy(collected, bytes, FILE_HEAD);
    used = FILE_HEAD;
    while ((length = whole(bytes + at, size - at)) > 0) {
        if (!is_put(out, bytes + at))
            return 3;
        at += length;
    }
    return at == size && is_written(out) && close(out) == 0 ? 0 : 3;
}
