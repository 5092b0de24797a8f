/* Answers calls that it reads from standard input, as common.py says; with the word `loaded`, by a handle that has loaded the
 * catalogue. Each call is made on a stack that has 24 KB, as cozgelt.h asks, with a page below that nobody may touch. */
#define _DEFAULT_SOURCE
#include "cozgelt.h"
#include "small_stack.h"
#include <inttypes.h>
#include <stdio.h>
#include <stdlib.h>
#include <string.h>

static CozgeltLimits limits = COZGELT_LIMITS;
static CozgeltAnswer answer;
static char name[16];
static unsigned long long catalog_len, stream_len;
static uint8_t *catalog, *stream, *room;
static size_t size;
static uint32_t profile, status;
static CozgeltCatalog loaded = COZGELT_CATALOG;

static uint8_t *read_bytes(size_t length) {
    uint8_t *bytes = malloc(length + 1);
    if (!bytes || fread(bytes, 1, length, stdin) != length) exit(3);
    return bytes;
}

#define GIVEN &limits, catalog, catalog_len, stream, stream_len, room, size, &answer

/* Of the strict profile the calls that are given none, and of others those that are given theirs. */
static void on_small_stack(void) {
    int checks = !strcmp(name, "check"), shows = !strcmp(name, "to_text");
    if (profile == COZGELT_STRICT)
        status = checks ? cozgelt_check(GIVEN) : shows ? cozgelt_to_text(GIVEN) : cozgelt_to_binary(GIVEN);
    else
        status = checks  ? cozgelt_check_with(profile, GIVEN)
                 : shows ? cozgelt_to_text_with(profile, GIVEN)
                         : cozgelt_to_binary_with(profile, GIVEN);
}

static void load_on_small_stack(void) { status = cozgelt_catalog_load(&limits, catalog, catalog_len, &loaded, &answer); }

static void free_on_small_stack(void) { cozgelt_catalog_free(&loaded); }

#define LOADED profile, &limits, &loaded, stream, stream_len, room, size, &answer

static void with_handle_on_small_stack(void) {
    status = !strcmp(name, "check")     ? cozgelt_check_loaded(LOADED)
             : !strcmp(name, "to_text") ? cozgelt_to_text_loaded(LOADED)
                                        : cozgelt_to_binary_loaded(LOADED);
}

static void make_call(void (*call)(void)) {
    CozgeltAnswer none = COZGELT_ANSWER;
    answer = none;
    call_on_small_stack(call);
}

int main(int words, char **word) {
    int by_handle = words == 2 && !strcmp(word[1], "loaded");
    unsigned depth;
    unsigned long long n[4];
    while (scanf("%15s %" SCNu32 " %u %llu %llu %llu %llu %llu %llu", name, &profile, &depth, n, n + 1, n + 2, n + 3, &catalog_len,
                 &stream_len) == 9 &&
           getchar() == '\n') {
        limits.depth = depth, limits.scalar = n[0], limits.symbols = n[1], limits.value = n[2], limits.input = n[3];
        catalog = read_bytes(catalog_len), stream = read_bytes(stream_len);
        uint8_t none = 0;
        room = &none;
        status = COZGELT_ACCEPTED;
        if (by_handle) make_call(load_on_small_stack);
        for (size = 0; status <= COZGELT_REFUSED; size = answer.needed) {
            if (size && !(room = malloc(size))) return 3;
            make_call(by_handle ? with_handle_on_small_stack : on_small_stack);
            if (answer.needed == size) break;
        }
        CozgeltAnswer got = answer;
        if (by_handle) make_call(free_on_small_stack);
        answer = got;
        const char *reason = cozgelt_reason(answer.reason);
        size_t length = status > COZGELT_REFUSED ? 0 : answer.needed;
        printf("%u %s %llu %llu %zu\n", status, *reason ? reason : "-", (unsigned long long)answer.place,
               (unsigned long long)answer.values, length);
        fwrite(room, 1, length, stdout);
        free(catalog), free(stream);
        if (room != &none) free(room);
    }
    return !feof(stdin);
}
