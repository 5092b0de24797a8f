/* The bytes that a program linked with --wrap=malloc,--wrap=realloc,--wrap=free asks of malloc: those that it has now, and the most
 * that it had at once. A block that moves is counted twice while it does. Where malloc gives nothing the program ends with status 3.
 * Before each block stands its length, in as many bytes as malloc aligns to. */
#include <stdint.h>
#include <stdlib.h>
#include <string.h>

#define BEFORE 16

void *__real_malloc(size_t), *__real_realloc(void *, size_t);
void __real_free(void *);
void *__wrap_malloc(size_t), *__wrap_realloc(void *, size_t);
void __wrap_free(void *);

static size_t held, peak;

static void *counted_block(uint8_t *block, size_t size) {
    if (!block) exit(3);
    memcpy(block, &size, sizeof size);
    held += size;
    if (held > peak) peak = held;
    return block + BEFORE;
}

static uint8_t *start_of(void *block, size_t *size) {
    *size = 0;
    if (!block) return 0;
    uint8_t *start = (uint8_t *)block - BEFORE;
    memcpy(size, start, sizeof *size);
    return start;
}

void *__wrap_malloc(size_t size) { return counted_block(__real_malloc(BEFORE + size), size); }

void *__wrap_realloc(void *block, size_t size) {
    size_t before;
    uint8_t *start = start_of(block, &before);
    block = counted_block(__real_realloc(start, BEFORE + size), size);
    held -= before;
    return block;
}

void __wrap_free(void *block) {
    size_t size;
    uint8_t *start = start_of(block, &size);
    held -= size;
    __real_free(start);
}
