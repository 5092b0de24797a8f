/* usage: calls CALL FILE ROUNDS [CATALOG bytes|loaded]: processor time of one call of the library, in seconds, the best of nine batches of
 * so many; with a catalogue, by its bytes, or by a handle that has loaded it before. Built with WRAPPED, the most bytes that a call has of
 * malloc at once, beside what the handle has. */
#include "cozgelt.h"
#ifdef WRAPPED
#include "../../checks/library/wrapped.h"
#endif
#include <stdio.h>
#include <stdlib.h>
#include <string.h>
#include <time.h>

static uint8_t stream[64 << 20], room[64 << 20], tables[1 << 20];

static size_t read_file(const char *name, uint8_t *bytes, size_t most) {
    FILE *file = fopen(name, "rb");
    if (!file) exit(2);
    return fread(bytes, 1, most, file);
}

#define REST stream, length, room, sizeof room, &answer

int main(int words, char **word) {
    if (words != 4 && words != 6) return 2;
    size_t length = read_file(word[2], stream, sizeof stream);
    size_t tables_length = words == 6 ? read_file(word[4], tables, sizeof tables) : 0;
    int by_handle = words == 6 && !strcmp(word[5], "loaded");
    int checks = !strcmp(word[1], "check"), shows = !strcmp(word[1], "to_text");
    CozgeltLimits limits = COZGELT_LIMITS;
    CozgeltAnswer answer = COZGELT_ANSWER;
    CozgeltCatalog loaded = COZGELT_CATALOG;
    if (by_handle && cozgelt_catalog_load(&limits, tables, tables_length, &loaded, &answer)) return 1;
#ifdef WRAPPED
    size_t before = peak = held;
#endif
    long rounds = atol(word[3]);
    double best = 1e9;
    for (int batch = 0; batch < 9; batch++) {
        clock_t start = clock();
        for (long i = 0; i < rounds; i++) {
            uint32_t status = by_handle ? checks  ? cozgelt_check_loaded(COZGELT_STRICT, &limits, &loaded, REST)
                                          : shows ? cozgelt_to_text_loaded(COZGELT_STRICT, &limits, &loaded, REST)
                                                  : cozgelt_to_binary_loaded(COZGELT_STRICT, &limits, &loaded, REST)
                              : checks  ? cozgelt_check(&limits, tables, tables_length, REST)
                              : shows   ? cozgelt_to_text(&limits, tables, tables_length, REST)
                                        : cozgelt_to_binary(&limits, tables, tables_length, REST);
            if (status) return 1;
        }
        double each = (double)(clock() - start) / CLOCKS_PER_SEC / rounds;
        if (each < best) best = each;
    }
#ifdef WRAPPED
    printf("%zu\n", peak - before);
#else
    printf("%.9f\n", best);
#endif
    return 0;
}
