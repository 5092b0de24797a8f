/* usage: example text|binary|check [FILE [CATALOG]]
 *
 * Writes of FILE, or of standard input, what `ion show`, `ion convert` of a text and `ion check` write, with their status. */
#include "cozgelt.h"
#include <errno.h>
#include <stdio.h>
#include <stdlib.h>
#include <string.h>

typedef uint32_t Call(const CozgeltLimits *, const uint8_t *, size_t, const uint8_t *, size_t, uint8_t *, size_t,
                      CozgeltAnswer *);

static Call *call_of(const char *word) {
    if (!strcmp(word, "text")) return cozgelt_to_text;
    if (!strcmp(word, "binary")) return cozgelt_to_binary;
    return strcmp(word, "check") ? 0 : cozgelt_check;
}

/* Says what failed; the status of all that is no verdict. */
static int fault(const char *what) {
    fprintf(stderr, "%s\n", what);
    return 3;
}

/* All bytes of a file, or of standard input where it has no name, which are to be freed; null where they can't be had. */
static uint8_t *read_all(const char *name, size_t *length) {
    FILE *from = name ? fopen(name, "rb") : stdin;
    if (!from) return fprintf(stderr, "cannot open %s: %s\n", name, strerror(errno)), NULL;
    size_t size = 1 << 16, got;
    uint8_t *bytes = malloc(size);
    *length = 0;
    while (bytes && (got = fread(bytes + *length, 1, size - *length, from)) > 0) {
        *length += got;
        if (*length == size) {
            uint8_t *more = realloc(bytes, size *= 2);
            if (!more) free(bytes);
            bytes = more;
        }
    }
    int failed = ferror(from); /* fread gives nothing at the end, and where it fails */
    if (name) fclose(from);
    if (bytes && !failed) return bytes;
    free(bytes);
    return fault(failed ? "read fault" : "no memory"), NULL;
}

/* The status, and all of the output, which is to be freed: one call that asks for its length, and one with so much room. */
static uint32_t convert(Call *call, const uint8_t *catalog, size_t catalog_len, const uint8_t *stream, size_t stream_len,
                        uint8_t **room, CozgeltAnswer *answer) {
    CozgeltLimits limits = COZGELT_LIMITS;
    uint8_t none = 0;
    uint32_t status = call(&limits, catalog, catalog_len, stream, stream_len, &none, 0, answer);
    *room = malloc(answer->needed + 1);
    if (status > COZGELT_REFUSED || !*room) return *room ? status : COZGELT_NO_OUTPUT_MEMORY;
    return call(&limits, catalog, catalog_len, stream, stream_len, *room, answer->needed, answer);
}

/* Says what the answer is; the status. */
static int tell(uint32_t status, const CozgeltAnswer *answer) {
    unsigned long long place = answer->place;
    if (status == COZGELT_ACCEPTED) return 0;
    if (status == COZGELT_NO_MEMORY || status == COZGELT_NO_OUTPUT_MEMORY) return fault("no memory");
    if (status != COZGELT_REFUSED && status != COZGELT_CATALOG_REFUSED) return fault("an unexpected status");
    const char *of = status == COZGELT_REFUSED ? "" : "catalog ";
    fprintf(stderr, "%srefused %s at %llu\n", of, cozgelt_reason(answer->reason), place);
    return 1;
}

int main(int words, char **word) {
    Call *call = words > 1 && words < 5 ? call_of(word[1]) : 0;
    if (!call || cozgelt_version() != COZGELT_VERSION) return 2;
    size_t stream_len, catalog_len = 0;
    uint8_t none = 0, *catalog = &none, *output;
    if (words > 3 && !(catalog = read_all(word[3], &catalog_len))) return 3;
    uint8_t *stream = read_all(words > 2 ? word[2] : 0, &stream_len);
    CozgeltAnswer answer = COZGELT_ANSWER;
    uint32_t status = stream ? convert(call, catalog, catalog_len, stream, stream_len, &output, &answer) : COZGELT_NO_MEMORY;
    if (words > 3) free(catalog);
    if (!stream) return 3;
    free(stream);

    if (status <= COZGELT_REFUSED) fwrite(output, 1, answer.needed, stdout);
    if (call == cozgelt_check && status == COZGELT_ACCEPTED) printf("ok %llu values\n", (unsigned long long)answer.values);
    free(output);
    int failed = ferror(stdout); /* a write may fail as late as the file is closed */
    if (fclose(stdout) || failed) return fault("write fault");
    return tell(status, &answer);
}
