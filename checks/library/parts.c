/* usage: parts CUTS BYTES [SEED]
 *
 * Runs each stream of the calls that it reads from standard input, as common.py says, in parts: CUTS times with its bytes cut at drawn
 * places, each time as what is drawn, and, where it has at most BYTES bytes, byte by byte as each. Each call is made with no room first,
 * and with just what is kept, on a stack of 24 KB; some are given no bytes. Verdict and joined output have to be those of the call on the
 * whole stream; of binary what is shown of them. The last line is `N passed, M failed`. */
#define _DEFAULT_SOURCE
#include "cozgelt.h"
#include "small_stack.h"
#include <inttypes.h>
#include <stdio.h>
#include <string.h>

typedef struct {
    uint8_t *at;
    size_t length, size;
} Bytes;

/* A verdict, and the output. */
typedef struct {
    uint32_t status, reason;
    uint64_t place, values;
    Bytes output;
} Verdict;

static CozgeltLimits limits = COZGELT_LIMITS;
static CozgeltCatalog loaded = COZGELT_CATALOG, none = COZGELT_CATALOG;
static CozgeltAnswer answer;
static CozgeltPart part;
static uint32_t profile, status, to;
static Bytes stream, kept, room;
static const uint8_t *from;
static size_t from_length;
static Verdict whole[5], joined, shown[2];
static uint64_t drawn = 1;
static long passed, failed;
static const char *wrong;

static uint64_t draw(uint64_t below) {
    drawn ^= drawn << 13, drawn ^= drawn >> 7, drawn ^= drawn << 17;
    return (drawn * 0x2545F4914F6CDD1D >> 20) % below;
}

static void has_room(Bytes *bytes, size_t size) {
    if (size <= bytes->size) return;
    bytes->size = size + size / 2 + 16;
    if (!(bytes->at = realloc(bytes->at, bytes->size))) exit(3);
}

static void append(Bytes *bytes, const uint8_t *more, size_t length) {
    has_room(bytes, bytes->length + length + 1);
    memcpy(bytes->at + bytes->length, more, length);
    bytes->length += length;
}

static void read_bytes(Bytes *bytes, size_t length) {
    bytes->length = length;
    has_room(bytes, length + 1);
    if (fread(bytes->at, 1, length, stdin) != length) exit(3);
}

/* The verdict of a call on a whole stream. */
static void answer_whole(Verdict *verdict, uint32_t as, CozgeltCatalog *tables, const Bytes *given) {
    CozgeltAnswer fresh = COZGELT_ANSWER;
    Bytes *output = &verdict->output;
    has_room(output, given->length + 1024);
    for (answer = fresh;; has_room(output, answer.needed)) {
        size_t size = output->size;
#define GIVEN profile, &limits, tables, given->at, given->length, output->at, size, &answer
        verdict->status = as == COZGELT_AS_TEXT        ? cozgelt_to_text_loaded(GIVEN)
                          : as == COZGELT_AS_PRETTY    ? cozgelt_to_pretty_loaded(GIVEN)
                          : as == COZGELT_AS_BINARY    ? cozgelt_to_binary_loaded(GIVEN)
                          : as == COZGELT_AS_REWRITTEN ? cozgelt_rewrite_loaded(GIVEN)
                                                       : cozgelt_check_loaded(GIVEN);
        if (answer.needed <= size) break;
    }
    output->length = answer.needed;
    verdict->reason = answer.reason, verdict->place = answer.place, verdict->values = answer.values;
}

static void call(void) {
    status = cozgelt_part(&limits, &loaded, &part, from, from_length, kept.at, kept.length, room.at, room.length, &answer);
}

static void call_with(size_t kept_length, size_t room_length) {
    CozgeltAnswer fresh = COZGELT_ANSWER;
    has_room(&kept, kept_length + 1), has_room(&room, room_length + 1);
    kept.length = kept_length, room.length = room_length, answer = fresh;
    part.taken = part.keeps = UINT64_MAX;
    room.at[room_length] = '#';
    call_on_small_stack(call);
    if (room.at[room_length] != '#') wrong = "a byte behind the room";
}

/* A call that has too little room, where any is needed, and then just enough. */
static void take(const uint8_t *bytes, size_t length, int last) {
    static Bytes before;
    uint64_t had = part.kept;
    before.length = 0, append(&before, kept.at, had);
    from = bytes, from_length = length, part.last = last;
    call_with(had, 0);
    if (status == COZGELT_NO_ROOM) {
        uint64_t keeps = part.keeps, needed = answer.needed, most = keeps > had ? keeps : had;
        if (part.kept != had || part.taken != UINT64_MAX || memcmp(kept.at, before.at, had) || answer.values) wrong = "no room";
        if (keeps > had && needed) call_with(keeps - 1, needed);
        if (keeps > had && needed && status != COZGELT_NO_ROOM) wrong = "room for less than is kept";
        if (part.kept != had || memcmp(kept.at, before.at, had)) wrong = "no room for what is kept";
        call_with(most, needed);
        if (status != COZGELT_ACCEPTED || part.kept != keeps || answer.needed != needed) wrong = "just enough room";
    } else if (status == COZGELT_REFUSED) {
        if (answer.needed) call_with(had, answer.needed);
        if (status != COZGELT_REFUSED || part.kept != had || memcmp(kept.at, before.at, had)) wrong = "a refusal";
    } else if (status != COZGELT_ACCEPTED) {
        wrong = "status";
    }
    if (status != COZGELT_ACCEPTED) return;
    if (!last && !part.taken && (answer.needed || answer.values || part.kept != had)) wrong = "nothing taken";
    if (last && (part.taken != length || part.kept != had)) wrong = "the last part";
    if (part.taken > length || part.kept != part.keeps) wrong = "what is taken";
    if (part.keeps > 4 && part.keeps > had + length) wrong = "what is kept";
}

/* Takes what can be taken of the stream up to a place; whether it may go on. */
static int take_until(uint64_t *place, size_t until, int last) {
    do {
        take(stream.at + *place, until - *place, last);
        if (wrong || status > COZGELT_REFUSED) return 0;
        append(&joined.output, room.at, answer.needed);
        joined.status = status, joined.reason = answer.reason, joined.place = *place + answer.place;
        if (status == COZGELT_REFUSED) return 0;
        joined.values += answer.values, *place += part.taken;
    } while (part.taken && !last);
    return 1;
}

/* Runs the stream in parts, of which the first end at these places. */
static void run(const size_t *end, size_t ends) {
    CozgeltPart fresh = COZGELT_PART;
    uint64_t place = 0;
    part = fresh, part.profile = profile, part.to = to;
    joined.output.length = joined.values = 0, wrong = 0;
    for (size_t i = 0; i < ends; i++)
        if (!take_until(&place, end[i], 0)) return;
    take_until(&place, stream.length, 1);
}

static int same(const Bytes *one, const Bytes *other) {
    return one->length == other->length && !memcmp(one->at, other->at, one->length);
}

/* Whether the verdict of the parts is that of the whole. */
static int is_right(const Verdict *want) {
    if (wrong) return 0;
    wrong = "the verdict";
    if (joined.status != want->status) return 0;
    if (want->status == COZGELT_ACCEPTED ? joined.values != want->values : joined.reason != want->reason || joined.place != want->place)
        return 0;
    wrong = "the output";
    if (to != COZGELT_AS_BINARY && to != COZGELT_AS_REWRITTEN) return same(&joined.output, &want->output);
    CozgeltLimits had = limits, most = {sizeof most, 65535, 1 << 30, 1 << 30, 1 << 30, (uint64_t)1 << 48};
    limits = most;
    answer_whole(&shown[0], COZGELT_AS_TEXT, &none, &joined.output);
    answer_whole(&shown[1], COZGELT_AS_TEXT, &none, &want->output);
    limits = had;
    return !shown[0].status && !shown[1].status && same(&shown[0].output, &shown[1].output);
}

static void judge(const size_t *end, size_t ends) {
    run(end, ends);
    if (is_right(&whole[to])) {
        passed++;
        return;
    }
    if (failed++ >= 20) return;
    printf("FAILED %s of %zu bytes (%.60s), as %u, status %u, cut at", wrong, stream.length, (char *)stream.at, to, joined.status);
    for (size_t i = 0; i < ends && i < 10; i++) printf(" %zu", end[i]);
    puts("");
}

static int compare(const void *one, const void *other) {
    size_t a = *(const size_t *)one, b = *(const size_t *)other;
    return (a > b) - (a < b);
}

static void judge_cuts(long cuts, size_t bytes) {
    static size_t end[1 << 16];
    for (uint32_t as = 0; as < 5; as++) answer_whole(&whole[as], as, &loaded, &stream);
    for (to = 0; to < 5 && stream.length <= bytes; to++) {
        for (size_t i = 0; i < stream.length; i++) end[i] = i + 1;
        judge(end, stream.length);
    }
    for (; cuts > 0; cuts--) {
        size_t ends = draw(7);
        for (size_t i = 0; i < ends; i++) end[i] = draw(stream.length + 1);
        qsort(end, ends, sizeof *end, compare); /* a place that comes twice is a call with no more bytes */
        to = draw(5);
        judge(end, ends);
    }
}

int main(int words, char **word) {
    if (words < 3 || words > 4) return 2;
    long cuts = atol(word[1]);
    size_t bytes = strtoul(word[2], 0, 10);
    if (words == 4) drawn = strtoull(word[3], 0, 10) * 2 + 1;
    unsigned depth;
    unsigned long long n[4], catalog_length, stream_length;
    while (scanf("%*15s %" SCNu32 " %u %llu %llu %llu %llu %llu %llu", &profile, &depth, n, n + 1, n + 2, n + 3, &catalog_length,
                 &stream_length) == 8 &&
           getchar() == '\n') {
        static Bytes catalog;
        CozgeltAnswer fresh = COZGELT_ANSWER;
        limits.depth = depth, limits.scalar = n[0], limits.symbols = n[1], limits.value = n[2], limits.input = n[3];
        read_bytes(&catalog, catalog_length), read_bytes(&stream, stream_length);
        stream.at[stream_length] = 0, answer = fresh;
        if (!cozgelt_catalog_load(&limits, catalog.at, catalog.length, &loaded, &answer)) judge_cuts(cuts, bytes);
        cozgelt_catalog_free(&loaded);
    }
    printf("%ld passed, %ld failed\n", passed, failed);
    return failed || !passed || !feof(stdin);
}
