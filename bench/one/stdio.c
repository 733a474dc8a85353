/* stdio IN OUT: takes 14 bytes off each record of a classic capture, as examples/strip does, with the C library alone; for bench/one.py. */
#include <stdint.h>
#include <stdio.h>
#include <string.h>

#define MAX_RECORD 262144

int main(int argc, char **argv)
{
    static uint8_t bytes[MAX_RECORD];
    FILE *in, *out;
    uint32_t head[4];
    if (argc != 3 || (in = fopen(argv[1], "rb")) == NULL || (out = fopen(argv[2], "wb")) == NULL)
        return 2;
    setvbuf(in, NULL, _IOFBF, 65536);
    setvbuf(out, NULL, _IOFBF, 65536);
    if (fread(bytes, 1, 24, in) != 24 || fwrite(bytes, 1, 24, out) != 24)
        return 3;
    while (fread(head, 1, sizeof head, in) == sizeof head) {
        if (head[2] > MAX_RECORD || fread(bytes, 1, head[2], in) != head[2])
            return 3;
        if (head[2] < 14)
            continue;
        head[2] -= 14;
        head[3] = head[2];
        fwrite(head, 1, sizeof head, out);
        fwrite(bytes + 14, 1, head[2], out);
    }
    return fclose(out) == 0 ? 0 : 3;
}
