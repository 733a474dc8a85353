/* each_cert PIPELINE PROGRAM CERTIFICATE [all]: sets each byte of a certificate to each digit and some other values, or to all; for
   tests/library/host.py. PIPELINE has one port, and names these two files for it. With each text either the pipeline is not loaded, since the text is no certificate or
   the program is refused with it; or its engine sends for each of some frames what it sends with the unchanged text, and ends with all buffers.
   Prints how many texts there were of each kind, and exits with 1 if there was another. */
#include "dpv.h"
#include <stdio.h>

#define NO_CERTIFICATE 17
#define IS_REFUSED 19
#define FRAMES 4
#define LONGEST 60

static const size_t lengths[FRAMES] = {0, 1, 14, LONGEST};
static uint8_t text[1 << 16], packed[1 << 16], frame[LONGEST];
static size_t text_length, packed_length;

/* What an engine sent for the frames: how many bytes of each frame, or one more than LONGEST for none, and the bytes. */
struct sent {
    size_t length[FRAMES];
    uint8_t bytes[FRAMES][LONGEST];
};

static size_t whole(const char *name, uint8_t *bytes, size_t room)
{
    FILE *file = fopen(name, "rb");
    size_t length;
    if (file == NULL)
        exit(3);
    length = fread(bytes, 1, room, file);
    fclose(file);
    return length;
}

/* Passes the frames in, and ends the engine. Whether all is as it has to be: at most one record for each frame, and no more bytes than it has. */
static int run(dpv_t *engine, struct dpv_batch *batch, struct sent *sent)
{
    struct dpv_totals totals;
    int is_so = 1;
    memset(sent, 0, sizeof *sent);
    for (int k = 0; k < FRAMES; k++) {
        is_so &= dpv_pass(engine, 0, frame, lengths[k], 7, batch) == DPV_RECEIVED && batch->filled.records <= 1;
        sent->length[k] = batch->filled.records == 0 ? LONGEST + 1 : batch->records[0].length;
        if (sent->length[k] <= LONGEST)
            memcpy(sent->bytes[k], batch->bytes + batch->records[0].offset, sent->length[k]);
    }
    is_so &= dpv_close(engine, &totals) == DPV_OK && totals.turns == FRAMES && totals.pools == 1;
    dpv_free(engine);
    return is_so;
}

/* Whether a byte is set to this value, if not to all: the digits, and others that no row may have. */
static int is_tried(int value)
{
    return (value >= '0' && value <= '9') || (value >= 'a' && value <= 'g') || value == 'A' || value == '\n' || value == 0 || value == 255;
}

int main(int argc, char **argv)
{
    static uint8_t file[1 << 16];
    struct dpv_reason reason;
    struct dpv_batch batch;
    struct sent first, sent;
    size_t length, at, texts = 0, no_certificate = 0, refused = 0, accepted = 0, wrong = 0;
    dpv_t *engine;
    if (argc != 4 && argc != 5)
        return 2;
    for (int k = 0; k < LONGEST; k++)
        frame[k] = (uint8_t)(k + 1);
    text_length = whole(argv[1], text, sizeof text);
    length = whole(argv[2], file, sizeof file);
    packed_length = dpv_pack(packed, argv[2], file, length);
    length = whole(argv[3], file, sizeof file);
    packed_length += dpv_pack(packed + packed_length, argv[3], file, length);
    engine = dpv_open(text, text_length, packed, packed_length, &reason);
    if (engine == NULL || dpv_batch_open(engine, &batch) != DPV_OK || !run(engine, &batch, &first))
        return printf("%s with %s: cause %u\n", argv[2], argv[3], reason.cause), 1;
    for (at = packed_length - length; at < packed_length; at++) {
        uint8_t old = packed[at];
        for (int value = 0; value < 256; value++) {
            if (argc == 4 && !is_tried(value))
                continue;
            texts++;
            packed[at] = (uint8_t)value;
            engine = dpv_open(text, text_length, packed, packed_length, &reason);
            no_certificate += reason.cause == NO_CERTIFICATE;
            refused += reason.cause == IS_REFUSED;
            accepted += engine != NULL;
            if (engine == NULL ? reason.cause != NO_CERTIFICATE && reason.cause != IS_REFUSED
                               : !run(engine, &batch, &sent) || memcmp(&first, &sent, sizeof sent) != 0) {
                printf("byte %zu set to %d: cause %u\n", at + length - packed_length, value, reason.cause);
                wrong++;
            }
        }
        packed[at] = old;
    }
    dpv_batch_close(&batch);
    printf("%s: %zu texts of a certificate, %zu no certificate, %zu refused, %zu accepted, %zu wrong\n", argv[2], texts, no_certificate, refused, accepted,
           wrong);
    return wrong != 0;
}
