/* usage: stream
 *
 * Canonical text of a stream of any length, from standard input, in memory that does not grow with its values: what `ion show`
 * writes, with its status. 64 MB may wait for the end of a value, and so many be kept. A fault in a part of which nothing can be
 * taken is told where the stream ends. fread waits for a megabyte: of a live stream take what read(2) gives. */
#include "cozgelt.h"
#include <stdio.h>
#include <stdlib.h>
#include <string.h>

typedef struct {
    uint8_t *at;
    size_t size;
} Buffer;

static Buffer bytes, kept, room;
static CozgeltLimits limits = COZGELT_LIMITS;
static CozgeltCatalog none = COZGELT_CATALOG;
static CozgeltPart part = COZGELT_PART;
static CozgeltAnswer answer = COZGELT_ANSWER;

/* Makes a buffer so long, and at least twice as long as it was. */
static int grow(Buffer *buffer, uint64_t size) {
    size = size > 2 * buffer->size ? size : 2 * buffer->size;
    uint8_t *at = realloc(buffer->at, size);
    if (!at) return 0;
    buffer->at = at, buffer->size = size;
    return 1;
}

/* One call, again with more room where there was too little. */
static uint32_t take(const uint8_t *from, size_t length) {
    for (;;) {
        uint32_t status = cozgelt_part(&limits, &none, &part, from, length, kept.at, kept.size, room.at, room.size, &answer);
        int is_short = status == COZGELT_NO_ROOM || (status == COZGELT_REFUSED && answer.needed > room.size);
        if (!is_short) return status;
        if (part.keeps >> 26) return COZGELT_NO_ROOM;
        if (status == COZGELT_NO_ROOM && part.keeps > kept.size && !grow(&kept, part.keeps)) return COZGELT_NO_MEMORY;
        if (answer.needed > room.size && !grow(&room, answer.needed)) return COZGELT_NO_MEMORY;
    }
}

static int fault(const char *what) {
    fprintf(stderr, "%s\n", what);
    return 3;
}

int main(void) {
    size_t length = 0;                /* of the bytes that were read and not taken */
    unsigned long long place = 0;     /* of the first of these in the stream */
    uint32_t status = COZGELT_ACCEPTED;
    if (cozgelt_version() != COZGELT_VERSION) return 2;
    if (!grow(&bytes, 1 << 20) || !grow(&room, 1 << 20) || !grow(&kept, 64)) return fault("no memory");
    while (!part.last && status == COZGELT_ACCEPTED) {
        if (length >> 26) return fault("a value of more than 64 MB");
        if (length == bytes.size && !grow(&bytes, 2 * length)) return fault("no memory");
        length += fread(bytes.at + length, 1, bytes.size - length, stdin);
        if (ferror(stdin)) return fault("read fault");
        part.last = feof(stdin) != 0;
        size_t done = 0;
        do {
            status = take(bytes.at + done, length - done);
            if (status <= COZGELT_REFUSED) fwrite(room.at, 1, answer.needed, stdout);
            if (status == COZGELT_ACCEPTED) done += part.taken;
        } while (status == COZGELT_ACCEPTED && part.taken && !part.last);
        place += done, length -= done;
        memmove(bytes.at, bytes.at + done, length);
    }
    int failed = ferror(stdout); /* a write may fail as late as the file is closed */
    if (fclose(stdout) || failed) return fault("write fault");
    if (status == COZGELT_NO_ROOM) return fault("symbol tables of more than 64 MB");
    if (status > COZGELT_REFUSED) return fault(status == COZGELT_NO_MEMORY ? "no memory" : "an unexpected status");
    if (status == COZGELT_REFUSED) fprintf(stderr, "refused %s at %llu\n", cozgelt_reason(answer.reason), place + answer.place);
    return status == COZGELT_REFUSED;
}
