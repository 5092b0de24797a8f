/* Right and wrong calls of each kind, then four threads at once, and eight over one catalogue. The last line is `N passed, M failed`. */
#include "cozgelt.h"
#include <pthread.h>
#include <stdio.h>
#include <string.h>

static int passed, failed;

static void judge(int right, const char *what) {
    if (right)
        passed++;
    else
        failed++, printf("FAILED %s\n", what);
}

#define STREAM(text) (const uint8_t *)(text), sizeof(text) - 1
#define TEXT "1 [2, 3] {a: 1.50}"
#define SHOWN "1\n[2,3]\n{a:1.50}\n"
#define PRETTY "1\n[\n  2,\n  3\n]\n{\n  a: 1.50\n}\n"
#define IMPORT "$ion_symbol_table::{imports:[{name:\"x\",version:1,max_id:2}]} $10 $11"
#define TABLE "$ion_shared_symbol_table::{name:\"x\",version:1,symbols:[\"p\",\"q\"]}"

/* A NOP pad, an int with a zero octet before it, a struct with its fields in order, and the symbol of a table that has one more. */
#define STORED                                                                                                                 \
    "\xE0\x01\x00\xEA\x01\xFF\x22\x00\x05\xD1\x82\x84\x11\xE9\x81\x83\xD6\x87\xB4\x81\x61\x81\x62\x71\x0B"
#define REWRITTEN "\xE0\x01\x00\xEA\x21\x05\xD2\x84\x11\xEA\x81\x83\xD7\x86\x71\x03\x87\xB2\x81\x62\x71\x0A"

#define FLOATS "[1.50e0, -0e0, 0.1e0, nan, +inf, 0e0] 602214076e15 4.94e-324"
#define FLOATS_SHOWN "[1.5e0,-0e0,1e-1,nan,+inf,0e0]\n6.02214076e23\n5e-324\n"
#define FLOATS_STORED                                                                                                          \
    "\xE0\x01\x00\xEA\xBE\x9E\x44\x3F\xC0\x00\x00\x44\x80\x00\x00\x00\x48\x3F\xB9\x99\x99\x99\x99\x99\x9A\x44\x7F\xC0"                    \
    "\x00\x00\x44\x7F\x80\x00\x00\x40\x48\x44\xDF\xE1\x85\xCA\x57\xC5\x17\x48\x00\x00\x00\x00\x00\x00\x00\x01"
#define FLOAT_IN_TABLE "$ion_shared_symbol_table::{name:\"x\",version:1,symbols:[\"p\"],more:"

static uint8_t room[100];
static CozgeltLimits limits;
static CozgeltAnswer answer;

/* Limits, answer and room as they are before a call; the room is full of marks. */
static void begin(void) {
    CozgeltLimits l = COZGELT_LIMITS;
    CozgeltAnswer a = COZGELT_ANSWER;
    limits = l, answer = a;
    memset(room, '#', sizeof room);
}

/* Whether all of the room but its first bytes is as it was. */
static int kept_from(size_t n) {
    for (; n < sizeof room; n++)
        if (room[n] != '#') return 0;
    return 1;
}

static int no_answer(void) {
    return answer.size == sizeof answer && !answer.reason && !answer.place && !answer.values && !answer.needed;
}

static void right_calls(void) {
    size_t n = sizeof SHOWN - 1;
    begin();
    judge(cozgelt_to_text(&limits, COZGELT_NO_CATALOG, STREAM(TEXT), room, sizeof room, &answer) == COZGELT_ACCEPTED &&
              answer.values == 3 && answer.needed == n && !memcmp(room, SHOWN, n) && kept_from(n),
          "to text");
    begin();
    judge(cozgelt_to_text(&limits, COZGELT_NO_CATALOG, STREAM(TEXT), room, n, &answer) == COZGELT_ACCEPTED &&
              !memcmp(room, SHOWN, n) && kept_from(n),
          "to text, in a room that just suffices");
    begin();
    judge(cozgelt_to_binary(&limits, COZGELT_NO_CATALOG, STREAM("5"), room, sizeof room, &answer) == COZGELT_ACCEPTED &&
              answer.needed == 6 && !memcmp(room, "\xE0\x01\x00\xEA\x21\x05", 6) && kept_from(6),
          "to binary");
    begin();
    judge(cozgelt_check(&limits, COZGELT_NO_CATALOG, STREAM(TEXT), room, sizeof room, &answer) == COZGELT_ACCEPTED &&
              answer.values == 3 && answer.needed == 0 && kept_from(0),
          "check");
    begin();
    judge(cozgelt_to_text(&limits, STREAM(TABLE), STREAM(IMPORT), room, sizeof room, &answer) == COZGELT_ACCEPTED &&
              answer.needed == 4 && !memcmp(room, "p\nq\n", 4),
          "to text with a catalogue");
    begin();
    judge(cozgelt_to_text(&limits, COZGELT_NO_CATALOG, STREAM("1 [2, 4e0"), room, sizeof room, &answer) == COZGELT_REFUSED &&
              !strcmp(cozgelt_reason(answer.reason), "Float") && answer.place == 6 && answer.needed == 4 &&
              !memcmp(room, "1\n[2", 4) && kept_from(4),
          "a refusal has what stands before it");
    begin();
    judge(cozgelt_to_text(&limits, COZGELT_NO_CATALOG, STREAM(""), room, sizeof room, &answer) == COZGELT_ACCEPTED &&
              !answer.needed && kept_from(0),
          "nothing");
    judge(cozgelt_version() == COZGELT_VERSION, "the version");
    judge(!*cozgelt_reason(0) && !*cozgelt_reason(24) && !strcmp(cozgelt_reason(23), "CatalogEntry"), "names of reasons");
}

static void wrong_calls(void) {
    size_t n = sizeof SHOWN - 1;
    begin();
    judge(cozgelt_to_text(&limits, COZGELT_NO_CATALOG, STREAM(TEXT), room, n - 1, &answer) == COZGELT_ACCEPTED &&
              answer.needed == n && kept_from(0),
          "a room that is a byte too small");
    begin();
    judge(cozgelt_to_text(&limits, COZGELT_NO_CATALOG, STREAM("1 [2, 4e0"), room, 3, &answer) == COZGELT_REFUSED &&
              answer.needed == 4 && kept_from(0),
          "a room that is too small, of a refusal");
    uint32_t *numbers[] = {&limits.size, &limits.depth};
    for (int i = 0; i < 2; i++) {
        begin();
        *numbers[i] = i ? 65536 : 39;
        judge(cozgelt_check(&limits, COZGELT_NO_CATALOG, STREAM("1"), room, sizeof room, &answer) == COZGELT_INVALID &&
                  no_answer() && kept_from(0),
              i ? "depth past its maximum" : "limits of another size");
    }
    uint64_t *longs[] = {&limits.scalar, &limits.symbols, &limits.value, &limits.input};
    for (int i = 0; i < 4; i++) {
        begin();
        *longs[i] = ((uint64_t)1 << (i == 3 ? 48 : 30)) + 1;
        judge(cozgelt_check(&limits, COZGELT_NO_CATALOG, STREAM("1"), room, sizeof room, &answer) == COZGELT_INVALID &&
                  no_answer(),
              "a limit past its maximum");
        *longs[i] -= 1;
        judge(cozgelt_check(&limits, COZGELT_NO_CATALOG, STREAM("1"), room, sizeof room, &answer) == COZGELT_ACCEPTED,
              "a limit at its maximum");
    }
    begin();
    answer.size = 24;
    judge(cozgelt_check(&limits, COZGELT_NO_CATALOG, STREAM("1"), room, sizeof room, &answer) == COZGELT_INVALID &&
              answer.size == 24,
          "an answer of another size");
    begin();
    limits.input = 2;
    judge(cozgelt_to_text(&limits, COZGELT_NO_CATALOG, STREAM("1 2"), room, sizeof room, &answer) == COZGELT_INPUT_LIMIT &&
              no_answer() && kept_from(0),
          "a stream past the limit");
    judge(cozgelt_to_text(&limits, STREAM(TABLE), STREAM("1"), room, sizeof room, &answer) == COZGELT_INPUT_LIMIT,
          "a catalogue past the limit");
    begin();
    judge(cozgelt_to_text(&limits, STREAM("1"), STREAM("1"), room, sizeof room, &answer) == COZGELT_CATALOG_REFUSED &&
              answer.reason == 23 && answer.place == 0 && kept_from(0),
          "a catalogue that is none");
    begin();
    judge(cozgelt_to_binary(&limits, COZGELT_NO_CATALOG, (const uint8_t *)"\xE0\x01\x00\xEA", 4, room, sizeof room, &answer) ==
                  COZGELT_REFUSED &&
              !strcmp(cozgelt_reason(answer.reason), "SameForm"),
          "binary asked for from binary");
}

/* Whether the room begins with all of a text, and is as it was behind it, as is told. */
#define HOLDS(text) (answer.needed == sizeof(text) - 1 && !memcmp(room, text, sizeof(text) - 1) && kept_from(sizeof(text) - 1))

static void calls_of_pretty_text(void) {
    begin();
    judge(cozgelt_to_pretty_with(COZGELT_STRICT, &limits, COZGELT_NO_CATALOG, STREAM(TEXT), room, sizeof room, &answer) ==
                  COZGELT_ACCEPTED &&
              answer.values == 3 && HOLDS(PRETTY),
          "to pretty text");
    begin();
    judge(cozgelt_to_text(&limits, COZGELT_NO_CATALOG, STREAM(PRETTY), room, sizeof room, &answer) == COZGELT_ACCEPTED &&
              answer.values == 3 && HOLDS(SHOWN),
          "pretty text to text");
    begin();
    judge(cozgelt_to_pretty_with(COZGELT_FLOATS, &limits, STREAM(TABLE), STREAM(IMPORT " [1e0]"), room, sizeof room, &answer) ==
                  COZGELT_ACCEPTED &&
              answer.values == 3 && HOLDS("p\nq\n[\n  1e0\n]\n"),
          "floats and imports to pretty text");
    begin();
    judge(cozgelt_to_pretty_with(COZGELT_STRICT, &limits, COZGELT_NO_CATALOG, STREAM("[1, {a:1e0"), room, sizeof room, &answer) ==
                  COZGELT_REFUSED &&
              !strcmp(cozgelt_reason(answer.reason), "Float") && answer.place == 7 && HOLDS("[\n  1,\n  {"),
          "a float to pretty text by the strict profile");
}

static void calls_that_rewrite(void) {
    begin();
    judge(cozgelt_rewrite_with(COZGELT_STRICT, &limits, COZGELT_NO_CATALOG, STREAM(STORED), room, sizeof room, &answer) ==
                  COZGELT_ACCEPTED &&
              answer.values == 3 && HOLDS(REWRITTEN),
          "binary to binary");
    begin();
    judge(cozgelt_rewrite_with(COZGELT_STRICT, &limits, COZGELT_NO_CATALOG, STREAM(REWRITTEN), room, sizeof room, &answer) ==
                  COZGELT_ACCEPTED &&
              answer.values == 3 && HOLDS(REWRITTEN),
          "binary to binary again");
    begin();
    judge(cozgelt_rewrite_with(COZGELT_STRICT, &limits, COZGELT_NO_CATALOG, STREAM("5 {name:true} b"), room, sizeof room,
                               &answer) == COZGELT_ACCEPTED &&
              answer.values == 3 && HOLDS(REWRITTEN),
          "text to binary, by the call that rewrites");
    begin();
    judge(cozgelt_rewrite_with(COZGELT_FLOATS, &limits, COZGELT_NO_CATALOG, STREAM(FLOATS_STORED), room, sizeof room, &answer) ==
                  COZGELT_ACCEPTED &&
              answer.values == 3 && HOLDS(FLOATS_STORED),
          "binary with floats to binary");
    begin();
    judge(cozgelt_rewrite_with(COZGELT_STRICT, &limits, COZGELT_NO_CATALOG, STREAM("\xE0\x01\x00\xEA\x21\x05\x31\x00"), room,
                               sizeof room, &answer) == COZGELT_REFUSED &&
              !strcmp(cozgelt_reason(answer.reason), "BadNumber") && answer.place == 6 && HOLDS("\xE0\x01\x00\xEA\x21\x05"),
          "what stands before a fault in binary, as binary");
}

static void calls_of_floats(void) {
    uint32_t by = COZGELT_FLOATS;
    begin();
    judge(cozgelt_to_text_with(by, &limits, COZGELT_NO_CATALOG, STREAM(FLOATS), room, sizeof room, &answer) == COZGELT_ACCEPTED &&
              answer.values == 3 && HOLDS(FLOATS_SHOWN),
          "floats to text");
    begin();
    judge(cozgelt_to_binary_with(by, &limits, COZGELT_NO_CATALOG, STREAM(FLOATS), room, sizeof room, &answer) == COZGELT_ACCEPTED &&
              answer.values == 3 && HOLDS(FLOATS_STORED),
          "floats to binary");
    begin();
    judge(cozgelt_to_text_with(by, &limits, COZGELT_NO_CATALOG, STREAM(FLOATS_STORED), room, sizeof room, &answer) ==
                  COZGELT_ACCEPTED &&
              answer.values == 3 && HOLDS(FLOATS_SHOWN),
          "floats from binary");
    begin();
    judge(cozgelt_check_with(by, &limits, COZGELT_NO_CATALOG, STREAM(FLOATS), room, sizeof room, &answer) == COZGELT_ACCEPTED &&
              answer.values == 3 && !answer.needed && kept_from(0),
          "floats checked");
    begin();
    judge(cozgelt_check_with(by, &limits, COZGELT_NO_CATALOG, STREAM("1 1e400"), room, sizeof room, &answer) == COZGELT_REFUSED &&
              !strcmp(cozgelt_reason(answer.reason), "Range") && answer.place == 2,
          "a float past the greatest");
    begin();
    judge(cozgelt_check_with(by, &limits, STREAM(FLOAT_IN_TABLE "1e0}"), STREAM("1"), room, sizeof room, &answer) ==
                  COZGELT_CATALOG_REFUSED &&
              !strcmp(cozgelt_reason(answer.reason), "Float") && answer.place == sizeof FLOAT_IN_TABLE - 1 && kept_from(0),
          "a float in a catalogue");
    begin();
    judge(cozgelt_to_text_with(by, &limits, STREAM(TABLE), STREAM(IMPORT " 1e0"), room, sizeof room, &answer) == COZGELT_ACCEPTED &&
              HOLDS("p\nq\n1e0\n"),
          "a float beside imports");
}

/* What the profile that has no floats reads, and refuses. */
static void strict_calls(void) {
    uint32_t by = COZGELT_STRICT;
    begin();
    judge(cozgelt_to_text_with(by, &limits, COZGELT_NO_CATALOG, STREAM("1 null.float"), room, sizeof room, &answer) ==
                  COZGELT_ACCEPTED &&
              answer.values == 2 && HOLDS("1\nnull.float\n"),
          "a null by the strict profile");
    begin();
    judge(cozgelt_to_text_with(by, &limits, COZGELT_NO_CATALOG, STREAM(FLOATS_STORED), room, sizeof room, &answer) ==
                  COZGELT_REFUSED &&
              !strcmp(cozgelt_reason(answer.reason), "Float") && answer.place == 6 && HOLDS("["),
          "a float from binary by the strict profile");
    begin();
    judge(cozgelt_to_binary_with(by, &limits, COZGELT_NO_CATALOG, STREAM("5 1e0"), room, sizeof room, &answer) == COZGELT_REFUSED &&
              !strcmp(cozgelt_reason(answer.reason), "Float") && answer.place == 2 && HOLDS("\xE0\x01\x00\xEA\x21\x05"),
          "a float to binary by the strict profile");
    begin();
    judge(cozgelt_check_with(by, &limits, COZGELT_NO_CATALOG, STREAM("5 nan"), room, sizeof room, &answer) == COZGELT_REFUSED &&
              !strcmp(cozgelt_reason(answer.reason), "Float") && answer.place == 2 && HOLDS(""),
          "a float checked by the strict profile");
    begin();
    limits.depth = 65536;
    judge(cozgelt_check_with(by, &limits, COZGELT_NO_CATALOG, STREAM("1"), room, sizeof room, &answer) == COZGELT_INVALID &&
              no_answer() && kept_from(0),
          "depth past its maximum, by a profile");
}

static void numbers_of_no_profile(void) {
    uint32_t numbers[] = {2, 3, 256, 65536, UINT32_MAX};
    for (int i = 0; i < 5; i++) {
        begin();
        judge(cozgelt_to_text_with(numbers[i], &limits, COZGELT_NO_CATALOG, STREAM(TEXT), room, sizeof room, &answer) ==
                      COZGELT_INVALID &&
                  no_answer() && kept_from(0),
              "to text by a number of no profile");
        judge(cozgelt_to_pretty_with(numbers[i], &limits, COZGELT_NO_CATALOG, STREAM(TEXT), room, sizeof room, &answer) ==
                      COZGELT_INVALID &&
                  no_answer() && kept_from(0),
              "to pretty text by a number of no profile");
        judge(cozgelt_rewrite_with(numbers[i], &limits, COZGELT_NO_CATALOG, STREAM(STORED), room, sizeof room, &answer) ==
                      COZGELT_INVALID &&
                  no_answer() && kept_from(0),
              "to binary again by a number of no profile");
        judge(cozgelt_to_binary_with(numbers[i], &limits, COZGELT_NO_CATALOG, STREAM(TEXT), room, sizeof room, &answer) ==
                      COZGELT_INVALID &&
                  no_answer() && kept_from(0),
              "to binary by a number of no profile");
        judge(cozgelt_check_with(numbers[i], &limits, STREAM("1"), STREAM(TEXT), room, sizeof room, &answer) == COZGELT_INVALID &&
                  no_answer() && kept_from(0),
              "check by a number of no profile");
    }
}

static CozgeltPart part;
static uint8_t kept[100];

/* Gives these bytes to the call in parts, with as much room and as much for what is kept. */
static uint32_t take(const uint8_t *bytes, size_t length, size_t kept_len, size_t room_len) {
    CozgeltCatalog none = COZGELT_CATALOG;
    uint64_t had = part.kept;
    begin();
    part.taken = part.keeps = 77;
    uint32_t status = cozgelt_part(&limits, &none, &part, bytes, length, kept, kept_len, room, room_len, &answer);
    judge(part.size == 40 && (status == COZGELT_ACCEPTED || part.kept == had), "what a part says of itself");
    return status;
}

static void begin_parts(uint32_t to) {
    CozgeltPart p = COZGELT_PART;
    part = p, part.to = to;
    memset(kept, '#', sizeof kept);
}

/* Whether just these bytes are kept. */
static int keeps(const char *bytes) {
    size_t n = strlen(bytes);
    return part.kept == n && part.keeps == n && !memcmp(kept, bytes, n) && kept[n] == '#';
}

static void calls_in_parts(void) {
    begin_parts(COZGELT_AS_TEXT);
    judge(take(STREAM("1\n[2,\n3"), 100, 100) == COZGELT_ACCEPTED && part.taken == 2 && answer.values == 1 && HOLDS("1\n") && keeps("\n"),
          "the first line");
    judge(take(STREAM("[2,\n3"), 100, 100) == COZGELT_ACCEPTED && !part.taken && !answer.values && HOLDS("") && keeps("\n"),
          "half of a value");
    judge(take(STREAM(""), 1, 0) == COZGELT_ACCEPTED && !part.taken && keeps("\n"), "no bytes");
    judge(take(STREAM("[2,\n3]\n"), 1, 6) == COZGELT_ACCEPTED && part.taken == 7 && answer.values == 1 && HOLDS("[2,3]\n"),
          "the other half, with just enough room");
    judge(take(STREAM("5\n\n[4e0"), 1, 100) == COZGELT_ACCEPTED && part.taken == 3 && HOLDS("5\n"), "what stands before a fault");
    part.last = 1;
    judge(take(STREAM("[4e0"), 1, 100) == COZGELT_REFUSED && answer.reason == 11 && answer.place == 1 && HOLDS("[") && part.taken == 77,
          "a fault in the last part");
    judge(take(STREAM("[4e0"), 1, 0) == COZGELT_REFUSED && answer.needed == 1 && kept_from(0), "the same with no room");
    judge(take(STREAM("6"), 1, 100) == COZGELT_ACCEPTED && part.taken == 1 && answer.values == 1 && HOLDS("6\n") && keeps("\n"),
          "another last part");
}

static void parts_of_other_forms(void) {
    begin_parts(COZGELT_AS_PRETTY);
    part.profile = COZGELT_FLOATS;
    judge(take(STREAM("$ion_symbol_table::{symbols:[\"p\"]}\n"), 100, 0) == COZGELT_ACCEPTED && part.taken == 35 && !answer.values &&
              keeps("$ion_symbol_table::{symbols:[\"p\"]}\n"),
          "a table");
    judge(take(STREAM("[$10, 4e0]\n"), 36, 100) == COZGELT_ACCEPTED && HOLDS("[\n  p,\n  4e0\n]\n") &&
              keeps("$ion_symbol_table::{symbols:[\"p\"]}\n"),
          "a value that needs it");
    judge(take(STREAM("[$11]\n"), 36, 100) == COZGELT_REFUSED && answer.reason == 17 && answer.place == 1 && HOLDS("["),
          "a symbol that it has not");

    begin_parts(COZGELT_AS_BINARY);
    judge(take(STREAM("5\n"), 1, 6) == COZGELT_ACCEPTED && HOLDS("\xE0\x01\x00\xEA\x21\x05"), "text to binary");
    begin_parts(COZGELT_AS_BINARY);
    judge(take(STREAM("\xE0\x01\x00\xEA\x21\x05"), 4, 6) == COZGELT_REFUSED && answer.reason == 22 && !answer.place && HOLDS(""),
          "binary to binary");
    begin_parts(COZGELT_AS_REWRITTEN);
    judge(take(STREAM("\xE0\x01\x00\xEA\x22\x00\x05\x21"), 4, 6) == COZGELT_ACCEPTED && part.taken == 7 && part.kept == 4 &&
              HOLDS("\xE0\x01\x00\xEA\x21\x05"),
          "binary to binary again");
    begin_parts(COZGELT_AS_NOTHING);
    judge(take(STREAM("1\n2\n"), 1, 0) == COZGELT_ACCEPTED && answer.values == 2 && HOLDS("") && keeps("\n"), "a part that is checked");
}

static void wrong_calls_in_parts(void) {
    begin_parts(COZGELT_AS_TEXT);
    judge(take(STREAM("1\n"), 1, 1) == COZGELT_NO_ROOM && answer.needed == 2 && part.keeps == 1 && part.taken == 77 && kept_from(0) &&
              kept[0] == '#' && !answer.values,
          "a room that is a byte too small");
    judge(take(STREAM("1\n"), 0, 2) == COZGELT_NO_ROOM && answer.needed == 2 && part.keeps == 1 && kept_from(0), "no room for what is kept");
    part.last = 1;
    judge(take(STREAM("1"), 0, 1) == COZGELT_NO_ROOM && answer.needed == 2 && part.keeps == 0 && kept_from(0), "the same of the last part");
    uint32_t *numbers[] = {&part.profile, &part.to, &part.last};
    for (int i = 0; i < 3; i++)
        for (int far = 0; far < 2; far++) {
            begin_parts(COZGELT_AS_TEXT);
            *numbers[i] = far ? UINT32_MAX : i == 1 ? 5 : 2;
            judge(take(STREAM("1\n"), 1, 100) == COZGELT_INVALID && no_answer() && kept_from(0) && part.taken == 77 && part.keeps == 77 &&
                      kept[0] == '#',
                  "a number that names nothing");
        }
    begin_parts(COZGELT_AS_TEXT);
    part.kept = 2;
    judge(take(STREAM("1\n"), 1, 100) == COZGELT_INVALID && no_answer() && kept_from(0), "more is kept than there is");
    begin_parts(COZGELT_AS_TEXT);
    CozgeltCatalog none = COZGELT_CATALOG;
    begin();
    part.size = 32;
    judge(cozgelt_part(&limits, &none, &part, STREAM("1\n"), kept, 1, room, 2, &answer) == COZGELT_INVALID && no_answer() && kept_from(0) &&
              part.size == 32,
          "a part of another size");
    part.size = 40, limits.input = 2;
    judge(cozgelt_part(&limits, &none, &part, STREAM("1\n2\n"), kept, 1, room, 4, &answer) == COZGELT_ACCEPTED && !part.taken,
          "a part past the limit on the input, which may wait");
    part.last = 1;
    judge(cozgelt_part(&limits, &none, &part, STREAM("1\n2\n"), kept, 1, room, 4, &answer) == COZGELT_INPUT_LIMIT && kept_from(0),
          "the last part past the limit on the input");
}

/* The tables of a handle serve a stream in parts too. */
static void parts_with_handles(void) {
    CozgeltCatalog one = COZGELT_CATALOG;
    CozgeltLimits l = COZGELT_LIMITS;
    CozgeltAnswer a = COZGELT_ANSWER;
    begin();
    judge(cozgelt_catalog_load(&l, STREAM(TABLE), &one, &a) == COZGELT_ACCEPTED, "a catalogue for parts");
    begin_parts(COZGELT_AS_TEXT);
    part.last = 1;
    for (int i = 0; i < 2; i++) {
        begin();
        judge(cozgelt_part(&l, &one, &part, STREAM(IMPORT), kept, 0, room, sizeof room, &answer) == COZGELT_ACCEPTED && HOLDS("p\nq\n"),
              "imports in a part");
    }
    cozgelt_catalog_free(&one);
}

#define OTHER_TABLE "$ion_shared_symbol_table::{name:\"x\",version:1,symbols:[\"r\",\"s\"]}"

static uint32_t text_by(CozgeltCatalog *loaded) {
    return cozgelt_to_text_loaded(COZGELT_STRICT, &limits, loaded, STREAM(IMPORT), room, sizeof room, &answer);
}

static int loads(CozgeltCatalog *loaded, const uint8_t *tables, size_t length) {
    begin();
    return cozgelt_catalog_load(&limits, tables, length, loaded, &answer) == COZGELT_ACCEPTED && no_answer();
}

/* Whether the tables of a handle are those of a catalogue, or none where there is none. */
static int has(CozgeltCatalog *loaded, const char *shown) {
    begin();
    int right = text_by(loaded) == (shown ? COZGELT_ACCEPTED : COZGELT_REFUSED);
    return right && (!shown || (answer.values == 2 && answer.needed == strlen(shown) && !memcmp(room, shown, strlen(shown))));
}

static void handles(void) {
    CozgeltCatalog one = COZGELT_CATALOG, two = COZGELT_CATALOG, none = COZGELT_CATALOG;
    judge(has(&none, 0), "a handle without tables");
    judge(loads(&one, STREAM(TABLE)) && has(&one, "p\nq\n") && has(&one, "p\nq\n"), "a handle that is used twice");
    judge(cozgelt_catalog_share(&one, &two) == COZGELT_ACCEPTED && has(&one, "p\nq\n") && has(&two, "p\nq\n"), "two handles");
    cozgelt_catalog_free(&one);
    judge(has(&one, 0) && has(&two, "p\nq\n"), "one of two is freed");
    cozgelt_catalog_free(&one);
    judge(loads(&one, STREAM(OTHER_TABLE)) && has(&one, "r\ns\n"), "a handle that was freed twice is loaded");
    judge(cozgelt_catalog_share(&two, &one) == COZGELT_ACCEPTED && has(&one, "p\nq\n"), "the tables that it had make room");
    judge(loads(&one, STREAM(OTHER_TABLE)) && has(&one, "r\ns\n") && has(&two, "p\nq\n"), "loaded again, beside another handle");
    judge(cozgelt_catalog_share(&none, &one) == COZGELT_ACCEPTED && has(&one, 0) && has(&none, 0), "none are shared");
    judge(loads(&two, STREAM("")) && has(&two, 0), "a catalogue of no tables");
    cozgelt_catalog_free(&one), cozgelt_catalog_free(&two), cozgelt_catalog_free(&none);
}

/* A catalogue that is not loaded leaves the tables that the handle had. */
static void handles_that_are_not_loaded(void) {
    CozgeltCatalog one = COZGELT_CATALOG;
    judge(loads(&one, STREAM(TABLE)), "a catalogue");
    begin();
    judge(cozgelt_catalog_load(&limits, STREAM(TABLE " 5"), &one, &answer) == COZGELT_CATALOG_REFUSED && answer.reason == 23 &&
              answer.place == sizeof TABLE && !answer.values && !answer.needed && has(&one, "p\nq\n"),
          "a value that is no table");
    begin();
    judge(cozgelt_catalog_load(&limits, STREAM(FLOAT_IN_TABLE "1e0}"), &one, &answer) == COZGELT_CATALOG_REFUSED &&
              !strcmp(cozgelt_reason(answer.reason), "Float") && has(&one, "p\nq\n"),
          "a float in a catalogue that is loaded");
    begin();
    limits.symbols = 40;
    judge(cozgelt_catalog_load(&limits, STREAM(TABLE), &one, &answer) == COZGELT_CATALOG_REFUSED &&
              !strcmp(cozgelt_reason(answer.reason), "SymbolLimit") && has(&one, "p\nq\n"),
          "a catalogue that costs too much");
    begin();
    limits.input = sizeof TABLE - 2;
    judge(cozgelt_catalog_load(&limits, STREAM(TABLE), &one, &answer) == COZGELT_INPUT_LIMIT && no_answer() && has(&one, "p\nq\n"),
          "a catalogue past the limit that is loaded");
    begin();
    limits.depth = 65536;
    judge(cozgelt_catalog_load(&limits, STREAM(TABLE), &one, &answer) == COZGELT_INVALID && no_answer() && has(&one, "p\nq\n"),
          "loaded with a depth past its maximum");
    begin();
    answer.size = 24;
    judge(cozgelt_catalog_load(&limits, STREAM(TABLE), &one, &answer) == COZGELT_INVALID && answer.size == 24 && has(&one, "p\nq\n"),
          "loaded with an answer of another size");
    cozgelt_catalog_free(&one);
}

#define GIVEN(profile) profile, &limits, &one, STREAM(IMPORT " [1e0]"), room, sizeof room, &answer

static void calls_with_handles(void) {
    CozgeltCatalog one = COZGELT_CATALOG;
    judge(loads(&one, STREAM(TABLE)), "a catalogue for calls");
    begin();
    judge(cozgelt_to_text_loaded(GIVEN(COZGELT_FLOATS)) == COZGELT_ACCEPTED && answer.values == 3 && HOLDS("p\nq\n[1e0]\n"), "text");
    begin();
    judge(cozgelt_to_pretty_loaded(GIVEN(COZGELT_FLOATS)) == COZGELT_ACCEPTED && answer.values == 3 && HOLDS("p\nq\n[\n  1e0\n]\n"),
          "pretty text with a handle");
    begin();
    judge(cozgelt_check_loaded(GIVEN(COZGELT_FLOATS)) == COZGELT_ACCEPTED && answer.values == 3 && HOLDS(""), "checked with a handle");
    begin();
    judge(cozgelt_to_binary_loaded(GIVEN(COZGELT_FLOATS)) == COZGELT_ACCEPTED && answer.values == 3, "binary with a handle");
    uint8_t binary[sizeof room];
    size_t length = answer.needed;
    memcpy(binary, room, sizeof binary);
    begin();
    judge(cozgelt_to_binary_with(COZGELT_FLOATS, &limits, STREAM(TABLE), STREAM(IMPORT " [1e0]"), room, sizeof room, &answer) ==
                  COZGELT_ACCEPTED &&
              answer.needed == length && !memcmp(binary, room, sizeof binary),
          "the binary of the catalogue's bytes");
    begin();
    judge(cozgelt_rewrite_loaded(COZGELT_FLOATS, &limits, &one, binary, length, room, sizeof room, &answer) == COZGELT_ACCEPTED &&
              answer.values == 3 && answer.needed == length && !memcmp(binary, room, sizeof binary),
          "binary again with a handle");
    begin();
    judge(cozgelt_to_binary_loaded(COZGELT_FLOATS, &limits, &one, binary, length, room, sizeof room, &answer) == COZGELT_REFUSED &&
              !strcmp(cozgelt_reason(answer.reason), "SameForm"),
          "binary asked for from binary with a handle");
    begin();
    judge(cozgelt_to_text_loaded(GIVEN(COZGELT_STRICT)) == COZGELT_REFUSED && !strcmp(cozgelt_reason(answer.reason), "Float") &&
              answer.place == sizeof IMPORT + 1 && HOLDS("p\nq\n["),
          "a float by the strict profile with a handle");
    begin();
    judge(cozgelt_check_loaded(GIVEN(2)) == COZGELT_INVALID && no_answer() && kept_from(0) && has(&one, "p\nq\n"),
          "a number of no profile with a handle");
    begin();
    limits.symbols = ((uint64_t)1 << 30) + 1;
    judge(cozgelt_check_loaded(GIVEN(COZGELT_STRICT)) == COZGELT_INVALID && no_answer() && kept_from(0) && has(&one, "p\nq\n"),
          "a limit past its maximum with a handle");
    begin();
    limits.input = 3;
    judge(text_by(&one) == COZGELT_INPUT_LIMIT && no_answer() && kept_from(0) && has(&one, "p\nq\n"),
          "a stream past the limit with a handle");
    begin();
    judge(cozgelt_to_text_loaded(COZGELT_STRICT, &limits, &one, STREAM(IMPORT), room, 3, &answer) == COZGELT_ACCEPTED &&
              answer.needed == 4 && kept_from(0),
          "a room that is a byte too small with a handle");
    cozgelt_catalog_free(&one);
}

/* A thousand calls of each kind with a thread's own handle, which it frees. */
struct own {
    CozgeltCatalog loaded;
    int right;
};

static void *many_loaded(void *of) {
    struct own *own = (struct own *)of;
    uint8_t mine[100];
    CozgeltLimits l = COZGELT_LIMITS;
    CozgeltAnswer a = COZGELT_ANSWER;
    own->right = 1;
    for (int i = 0; i < 1000; i++) {
        CozgeltCatalog more = COZGELT_CATALOG;
        own->right &= cozgelt_catalog_share(&own->loaded, &more) == COZGELT_ACCEPTED;
        own->right &= cozgelt_to_text_loaded(COZGELT_STRICT, &l, &more, STREAM(IMPORT), mine, sizeof mine, &a) == COZGELT_ACCEPTED &&
                      a.needed == 4 && !memcmp(mine, "p\nq\n", 4);
        cozgelt_catalog_free(&more);
        own->right &= cozgelt_check_loaded(COZGELT_STRICT, &l, &own->loaded, STREAM(IMPORT " 4e0"), mine, 0, &a) == COZGELT_REFUSED &&
                      a.place == sizeof IMPORT;
    }
    cozgelt_catalog_free(&own->loaded);
    return 0;
}

/* Eight threads over one catalogue, whose first handle is freed while they run. */
static void threads_over_one(void) {
    CozgeltCatalog first = COZGELT_CATALOG;
    pthread_t thread[8];
    static struct own own[8];
    judge(loads(&first, STREAM(TABLE)), "a catalogue for threads");
    for (int i = 0; i < 8; i++)
        judge(cozgelt_catalog_share(&first, &own[i].loaded) == COZGELT_ACCEPTED &&
                  !pthread_create(&thread[i], 0, many_loaded, &own[i]),
              "a thread with a handle");
    cozgelt_catalog_free(&first);
    for (int i = 0; i < 8; i++) judge(!pthread_join(thread[i], 0) && own[i].right, "calls of a thread beside seven others");
}

/* A thousand calls of each kind, each with the answer of the first. */
static void *many(void *of) {
    uint8_t mine[100], first[100];
    CozgeltLimits l = COZGELT_LIMITS;
    CozgeltAnswer a = COZGELT_ANSWER;
    *(int *)of = 1;
    for (int i = 0; i < 1000; i++) {
        memset(mine, 0, sizeof mine);
        *(int *)of &=
            cozgelt_to_binary(&l, STREAM(TABLE), STREAM(IMPORT), mine, sizeof mine, &a) == COZGELT_ACCEPTED && a.values == 2;
        if (!i) memcpy(first, mine, sizeof mine);
        *(int *)of &= !memcmp(first, mine, sizeof mine);
        *(int *)of &= cozgelt_to_text(&l, COZGELT_NO_CATALOG, STREAM(TEXT), mine, sizeof mine, &a) == COZGELT_ACCEPTED &&
                      !memcmp(mine, SHOWN, sizeof SHOWN - 1);
        *(int *)of &= cozgelt_check(&l, COZGELT_NO_CATALOG, STREAM("1 4e0"), mine, 0, &a) == COZGELT_REFUSED && a.place == 2;
        *(int *)of &= cozgelt_to_text_with(COZGELT_FLOATS, &l, COZGELT_NO_CATALOG, STREAM(FLOATS_STORED), mine, sizeof mine, &a) ==
                          COZGELT_ACCEPTED &&
                      !memcmp(mine, FLOATS_SHOWN, sizeof FLOATS_SHOWN - 1);
    }
    return 0;
}

int main(void) {
    right_calls();
    wrong_calls();
    calls_of_pretty_text();
    calls_that_rewrite();
    calls_of_floats();
    strict_calls();
    numbers_of_no_profile();
    calls_in_parts();
    parts_of_other_forms();
    wrong_calls_in_parts();
    parts_with_handles();
    handles();
    handles_that_are_not_loaded();
    calls_with_handles();
    threads_over_one();
    pthread_t thread[4];
    int right[4] = {0};
    for (int i = 0; i < 4; i++) judge(!pthread_create(&thread[i], 0, many, &right[i]), "a thread");
    for (int i = 0; i < 4; i++) judge(!pthread_join(thread[i], 0) && right[i], "calls of a thread beside three others");
    printf("%d passed, %d failed\n", passed, failed);
    return failed != 0;
}
