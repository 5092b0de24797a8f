/* Answers calls that it reads from standard input, as common.py says, each with no room, with room for half of the output and with
 * room for all of it, and judges the bytes that are asked of malloc: with no room at most what README counts, with a room at most
 * so much more, and none after a call; each with a handle, which holds its tables alone between calls; and in parts. To be linked with
 * --wrap=malloc,--wrap=realloc,--wrap=free. The last line is `N passed, M failed`. */
#include "cozgelt.h"
#include "wrapped.h"
#include <inttypes.h>
#include <stdio.h>

static CozgeltLimits limits = COZGELT_LIMITS;
static CozgeltAnswer answer;
static char name[16];
static uint32_t profile;
static unsigned long long catalog_len, stream_len;
static uint8_t *catalog, *stream;
static long passed, failed;

static void judge(int right, const char *what, size_t got, size_t most) {
    right ? passed++ : failed++;
    if (!right && failed <= 20) printf("FAILED %s of %llu bytes: %s, %zu, not %zu\n", name, stream_len, what, got, most);
}

static uint8_t *read_bytes(size_t length) {
    uint8_t *bytes = __real_malloc(length + 1);
    if (!bytes || fread(bytes, 1, length, stdin) != length) exit(3);
    return bytes;
}

#define GIVEN profile, &limits, catalog, catalog_len, stream, stream_len, room, size, &answer

/* One call with so much room, of which canonical text may be pretty: the most bytes that it had of malloc at once. */
static size_t peak_with(size_t size, int pretty) {
    CozgeltAnswer none = COZGELT_ANSWER;
    uint8_t *room = __real_malloc(size + 1);
    if (!room) exit(3);
    answer = none, held = peak = 0;
    if (pretty)
        cozgelt_to_pretty_with(GIVEN);
    else if (!strcmp(name, "check"))
        cozgelt_check_with(GIVEN);
    else if (!strcmp(name, "to_text"))
        cozgelt_to_text_with(GIVEN);
    else
        cozgelt_to_binary_with(GIVEN);
    judge(!held, "not given back", held, 0);
    __real_free(room);
    return peak;
}

/* What README counts, for a run and so many lengths of the limit on symbols: lengths, of which a growing buffer may take three times as
 * much. The least that a buffer takes is not counted, for which some kilobytes are let through. */
static size_t counted_for(int symbols) {
    size_t lengths = 32 * (size_t)limits.depth + 3 * limits.scalar + symbols * limits.symbols;
    if (!strcmp(name, "to_binary")) lengths += limits.symbols + limits.value;
    return 8192 + 3 * lengths + 4096;
}

/* For a run and its catalogue. */
static size_t counted(void) { return counted_for(3); }

/* Loads the catalogue, and makes a call with it: loading takes what README counts for it, the call what it counts for a run, and
 * nothing is left. */
static void by_handle(void) {
    CozgeltAnswer none = COZGELT_ANSWER;
    CozgeltCatalog loaded = COZGELT_CATALOG;
    uint8_t room = 0;
    answer = none, held = peak = 0;
    uint32_t status = cozgelt_catalog_load(&limits, catalog, catalog_len, &loaded, &answer);
    size_t most = 8192 + 3 * (32 * (size_t)limits.depth + 3 * limits.scalar + 3 * limits.symbols) + 4096, kept = held;
    judge(peak <= most, "the peak of loading", peak, most);
    judge(status ? !kept : kept <= 3 * limits.symbols + 4096, "what is kept", kept, 3 * limits.symbols + 4096);
    peak = kept, answer = none;
    if (!strcmp(name, "check"))
        cozgelt_check_loaded(profile, &limits, &loaded, stream, stream_len, &room, 0, &answer);
    else if (!strcmp(name, "to_text"))
        cozgelt_to_text_loaded(profile, &limits, &loaded, stream, stream_len, &room, 0, &answer);
    else
        cozgelt_to_binary_loaded(profile, &limits, &loaded, stream, stream_len, &room, 0, &answer);
    judge(peak - kept <= counted_for(2), "the peak with a handle", peak - kept, counted_for(2));
    judge(held == kept, "left by the call", held, kept);
    cozgelt_catalog_free(&loaded);
    judge(!held, "left by the handle", held, 0);
    cozgelt_catalog_free(&loaded);
    judge(!held, "given back by a handle that is freed again", held, 0);
}

/* Takes the stream in parts, each with no more room than the ones before it needed, and then with as much as it needs: a call takes what
 * README counts for a run and its room, and nothing is left. */
static void by_parts(void) {
    CozgeltAnswer none = COZGELT_ANSWER;
    CozgeltCatalog loaded = COZGELT_CATALOG;
    CozgeltPart part = COZGELT_PART;
    answer = none, held = 0;
    if (cozgelt_catalog_load(&limits, catalog, catalog_len, &loaded, &answer)) return;
    size_t tables = held, done = 0, kept_len = 0, room_len = 0;
    uint8_t *kept = __real_malloc(1), *room = __real_malloc(1);
    part.profile = profile;
    part.to = !strcmp(name, "check") ? COZGELT_AS_NOTHING : !strcmp(name, "to_text") ? COZGELT_AS_TEXT : COZGELT_AS_BINARY;
    while (kept && room) {
        answer = none, peak = held;
        uint32_t status = cozgelt_part(&limits, &loaded, &part, stream + done, stream_len - done, kept, kept_len, room, room_len, &answer);
        size_t most = counted_for(2) + room_len;
        judge(peak - tables <= most, "the peak of a part", peak - tables, most);
        judge(held == tables, "left by a part", held, tables);
        if (status == COZGELT_NO_ROOM || (status == COZGELT_REFUSED && answer.needed > room_len)) {
            if (answer.needed > room_len) room = __real_realloc(room, room_len = answer.needed);
            if (status == COZGELT_NO_ROOM && part.keeps > kept_len) kept = __real_realloc(kept, kept_len = part.keeps);
        } else if (status != COZGELT_ACCEPTED || part.last) {
            break;
        } else {
            done += part.taken, part.last = !part.taken;
        }
    }
    if (!kept || !room) exit(3);
    __real_free(kept), __real_free(room);
    cozgelt_catalog_free(&loaded);
    judge(!held, "left by parts", held, 0);
}

int main(void) {
    unsigned depth;
    unsigned long long n[4];
    while (scanf("%15s %" SCNu32 " %u %llu %llu %llu %llu %llu %llu", name, &profile, &depth, n, n + 1, n + 2, n + 3, &catalog_len,
                 &stream_len) == 9 &&
           getchar() == '\n') {
        limits.depth = depth, limits.scalar = n[0], limits.symbols = n[1], limits.value = n[2], limits.input = n[3];
        catalog = read_bytes(catalog_len), stream = read_bytes(stream_len);
        for (int pretty = 0; pretty <= !strcmp(name, "to_text"); pretty++) {
            size_t least = peak_with(0, pretty), needed = answer.needed;
            judge(least <= counted(), "the peak with no room", least, counted());
            for (int part = 2; part > 0 && needed; part--) {
                size_t room = needed / part, most = peak_with(room, pretty);
                judge(most <= least + room, "the peak with a room", most, least + room);
            }
        }
        by_handle();
        by_parts();
        __real_free(catalog), __real_free(stream);
    }
    printf("%ld passed, %ld failed\n", passed, failed);
    return failed || !passed || !feof(stdin);
}
