/* Each allocation of a call refused in turn, alone and with all after it: the status is 2 or 4; room, answer, handles and what is kept
 * stay; and all memory is given back. To be linked with --wrap=malloc,--wrap=realloc,--wrap=free. The last line is `N passed, M failed`. */
#include "cozgelt.h"
#include <stdio.h>
#include <string.h>

void *__real_malloc(size_t), *__real_realloc(void *, size_t);
void __real_free(void *);
void *__wrap_malloc(size_t), *__wrap_realloc(void *, size_t);
void __wrap_free(void *);

static long asked, refused_from, refused_to, held;

static int refuses(void) {
    asked++;
    return asked >= refused_from && asked <= refused_to;
}

void *__wrap_malloc(size_t size) {
    void *block = refuses() ? 0 : __real_malloc(size);
    held += block != 0;
    return block;
}

void *__wrap_realloc(void *block, size_t size) {
    void *more = refuses() ? 0 : __real_realloc(block, size);
    held += !block && more;
    return more;
}

void __wrap_free(void *block) {
    held -= block != 0;
    __real_free(block);
}

static const char stream[] = "$ion_symbol_table::{imports:[{name:\"x\",version:1,max_id:2}],symbols:[\"r\"]} $10 "
                             "a::{b:[1,2.50,\"text\",{{aGVs}}]} $12 4e0";
static const char table[] = "$ion_shared_symbol_table::{name:\"x\",version:1,symbols:[\"p\",\"q\"]}";

#define GIVEN                                                                                                                  \
    &limits, (const uint8_t *)table, sizeof table - 1, (const uint8_t *)stream, sizeof stream - 1, room, sizeof room, &answer

/* One call, from 3 on by the profile that has floats; whether its answer is one that it may have. `whole`: whether no allocation was
 * refused. */
static int answers(int call, int whole) {
    CozgeltLimits limits = COZGELT_LIMITS;
    CozgeltAnswer answer = COZGELT_ANSWER;
    uint8_t room[200], before[sizeof room];
    memset(room, '#', sizeof room), memcpy(before, room, sizeof room);
    asked = 0, held = 0;
    uint32_t status = call == 0   ? cozgelt_to_text(GIVEN)
                      : call == 1 ? cozgelt_to_binary(GIVEN)
                      : call == 2 ? cozgelt_check(GIVEN)
                      : call == 3 ? cozgelt_to_text_with(COZGELT_FLOATS, GIVEN)
                      : call == 4 ? cozgelt_to_binary_with(COZGELT_FLOATS, GIVEN)
                      : call == 5 ? cozgelt_to_pretty_with(COZGELT_FLOATS, GIVEN)
                      : call == 6 ? cozgelt_rewrite_with(COZGELT_FLOATS, GIVEN)
                                  : cozgelt_check_with(COZGELT_FLOATS, GIVEN);
    int met = asked >= refused_from; /* else the call asked for less */
    if (held) return 0;
    if ((whole || !met) && call > 2) return status == COZGELT_ACCEPTED && answer.values == 4;
    if (whole || !met) return status == COZGELT_REFUSED && !strcmp(cozgelt_reason(answer.reason), "Float");
    return (status == COZGELT_NO_MEMORY || status == COZGELT_NO_OUTPUT_MEMORY) && !answer.reason && !answer.needed &&
           !memcmp(room, before, sizeof room);
}

/* Whether a call with a handle accepts the stream, which it does only with the tables. */
static int has_tables(CozgeltCatalog *loaded) {
    CozgeltLimits limits = COZGELT_LIMITS;
    CozgeltAnswer answer = COZGELT_ANSWER;
    uint8_t room[200];
    return cozgelt_to_text_loaded(COZGELT_FLOATS, &limits, loaded, (const uint8_t *)stream, sizeof stream - 1, room, sizeof room,
                                  &answer) == COZGELT_ACCEPTED;
}

/* Judges so a call with a handle that has the tables: loading them into another handle, loading them again, sharing them, and a
 * conversion. Where it fails, each handle has what it had. */
static int handle_answers(int call, int whole) {
    CozgeltLimits limits = COZGELT_LIMITS;
    CozgeltAnswer answer = COZGELT_ANSWER;
    CozgeltCatalog one = COZGELT_CATALOG, two = COZGELT_CATALOG;
    uint8_t room[200], before[sizeof room];
    long from = refused_from, to = refused_to;
    memset(room, '#', sizeof room), memcpy(before, room, sizeof room);
    refused_from = refused_to = 0, held = 0;
    if (cozgelt_catalog_load(&limits, (const uint8_t *)table, sizeof table - 1, &one, &answer)) return 0;
    asked = 0, refused_from = from, refused_to = to;
    uint32_t status = call < 2   ? cozgelt_catalog_load(&limits, (const uint8_t *)table, sizeof table - 1, call ? &one : &two, &answer)
                      : call < 3 ? cozgelt_catalog_share(&one, &two)
                                 : cozgelt_to_text_loaded(COZGELT_FLOATS, &limits, &one, (const uint8_t *)stream, sizeof stream - 1, room,
                                                          sizeof room, &answer);
    long all = asked;
    int goes_well = whole || asked < refused_from;
    refused_from = refused_to = 0;
    int right = has_tables(&one) && has_tables(&two) == (goes_well && (call == 0 || call == 2));
    right &= goes_well ? status == COZGELT_ACCEPTED
                       : (status == COZGELT_NO_MEMORY || (call == 3 && status == COZGELT_NO_OUTPUT_MEMORY)) && !answer.reason &&
                             !answer.needed && !memcmp(room, before, sizeof room);
    cozgelt_catalog_free(&one), cozgelt_catalog_free(&two);
    asked = all;
    return right && !held;
}

static const char lines[] = "{b:[1,2.50,\"text\",{{aGVs}}]}\n[4e0]\n";

/* Judges so a call that takes a part of a stream, with a handle that has the tables. Where it fails, part and what is kept stay too. */
static int part_answers(int last, int whole) {
    CozgeltLimits limits = COZGELT_LIMITS;
    CozgeltAnswer answer = COZGELT_ANSWER;
    CozgeltCatalog one = COZGELT_CATALOG;
    CozgeltPart part = COZGELT_PART, had;
    uint8_t room[200], kept[200], before[sizeof room];
    long from = refused_from, to = refused_to;
    memset(room, '#', sizeof room), memset(kept, '#', sizeof kept), memset(before, '#', sizeof before);
    refused_from = refused_to = 0, held = 0;
    if (cozgelt_catalog_load(&limits, (const uint8_t *)table, sizeof table - 1, &one, &answer)) return 0;
    asked = 0, refused_from = from, refused_to = to;
    part.profile = COZGELT_FLOATS, part.last = (uint32_t)last, had = part;
    const char *given = last ? stream : lines;
    uint32_t status = cozgelt_part(&limits, &one, &part, (const uint8_t *)given, strlen(given), kept, sizeof kept, room, sizeof room,
                                   &answer);
    long all = asked;
    int goes_well = whole || asked < refused_from;
    refused_from = refused_to = 0;
    int right = has_tables(&one);
    right &= goes_well ? status == COZGELT_ACCEPTED && part.taken == strlen(given) && answer.values == (last ? 4 : 2)
                       : (status == COZGELT_NO_MEMORY || status == COZGELT_NO_OUTPUT_MEMORY) && !answer.reason && !answer.needed &&
                             !memcmp(&part, &had, sizeof part) && !memcmp(room, before, sizeof room) && !memcmp(kept, before, sizeof kept);
    cozgelt_catalog_free(&one);
    asked = all;
    return right && !held;
}

static int answers_of(int call, int whole) {
    return call < 8 ? answers(call, whole) : call < 12 ? handle_answers(call - 8, whole) : part_answers(call - 12, whole);
}

int main(void) {
    int passed = 0, failed = 0;
    for (int i = 0; i < 14; i++) {
        refused_from = refused_to = 0;
        int right = answers_of(i, 1);
        right ? passed++ : failed++;
        long all = asked;
        for (long n = 1; n <= all; n++)
            for (int alone = 0; alone < 2; alone++) {
                refused_from = n, refused_to = alone ? n : all + 1000;
                right = answers_of(i, 0);
                if (!right)
                    printf("FAILED call %d, allocation %ld of %ld%s\n", i, n, all, alone ? " alone" : " and all after it");
                right ? passed++ : failed++;
            }
    }
    printf("%d passed, %d failed\n", passed, failed);
    return failed != 0;
}
