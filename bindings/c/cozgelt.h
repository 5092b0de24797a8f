/* Amazon Ion 1.0 in the caller's memory, text or binary: as canonical text, as pretty text, as binary, or checked. It is a
 * transcoder: no value can be read from it but out of what it writes. A float other than null.float is refused (Float, 11), unless
 * a call is given COZGELT_FLOATS.
 *
 * What a call answers (but for want of memory), and every byte that it writes, is proved (crates/cozgelt_c), of callers that keep what no
 * proof sees of C:
 *  - each pointer is not null, also where its length is 0, and points at as many bytes as its length says;
 *  - limits, answer and part point at whole structs, which were set as COZGELT_LIMITS, COZGELT_ANSWER and COZGELT_PART set them;
 *  - room, answer, part and kept overlap neither one another nor limits, catalog, stream or bytes (these may overlap one another), and
 *    nobody else uses them during the call, nor changes limits, catalog, stream or bytes;
 *  - part->kept and the bytes in kept are as the last call on the stream left them (these may stand elsewhere then), or part->kept is 0
 *    where it begins;
 *  - a CozgeltCatalog was set as COZGELT_CATALOG sets it, and since then by the calls of this header alone; it overlaps nothing else,
 *    and nobody else uses it during a call; a copy of one is given to no call;
 *  - malloc, realloc and free belong together, and malloc aligns as C asks of it;
 *  - the CPU is an x86-64-v2 (SSE4.2), and the stack has 24 KB left;
 *  - no call is made from a signal handler, nor in a forked child of a process that had threads.
 *
 * A call keeps nothing but the tables of a CozgeltCatalog. It takes memory by malloc, for output too, at most the room's length, and
 * gives all else of it back before it returns. There is no other state, so any number of threads may call at once.
 *
 * The statuses 2 and 4 come where malloc gave nothing, 4 also for a room above 2^47 bytes; no proof sees malloc: this is only
 * tested.
 *
 * libcozgelt.a is linked with libgcc too (-lgcc), which a compiler adds by itself.
 *
 * A stream of any length goes through cozgelt_part, part by part. An example, stream.c, does that. It and LIBRARY.md, which has the
 * whole, are installed in share/doc/cozgelt; in the repository they are bindings/c/stream.c and docs/LIBRARY.md. */
#ifndef COZGELT_H
#define COZGELT_H

#include <stddef.h>
#include <stdint.h>

#ifdef __cplusplus
extern "C" {
#endif

/* 10,000 times the version's first number, 100 times the second, and the third. Before 1.0 the second rises where something
 * breaks. */
#define COZGELT_VERSION 200

typedef struct {
    uint32_t size;    /* sizeof(CozgeltLimits) */
    uint32_t depth;   /* containers open at once, at most 65,535 */
    uint64_t scalar;  /* bytes of one scalar, at most 2^30 */
    uint64_t symbols; /* bytes of one symbol table, and of all tables of the catalogue, at most 2^30 */
    uint64_t value;   /* bytes of one value at top level, written as binary, at most 2^30 */
    uint64_t input;   /* bytes of the stream, and of the catalogue, at most 2^48 */
} CozgeltLimits;

/* Those of the program: 64; 1,048,576; 1,048,576; 16,777,216; 2^48. */
#define COZGELT_LIMITS {sizeof(CozgeltLimits), 64, 1048576, 1048576, 16777216, (uint64_t)1 << 48}

typedef struct {
    uint32_t size;   /* sizeof(CozgeltAnswer) */
    uint32_t reason; /* COZGELT_REFUSED, COZGELT_CATALOG_REFUSED: why; cozgelt_reason has its name */
    uint64_t place;  /* the same: the first byte of the faulty part, counted from 0 */
    uint64_t values; /* COZGELT_ACCEPTED: how many values the stream has at top level */
    uint64_t needed; /* COZGELT_ACCEPTED, COZGELT_REFUSED: how many bytes the output has */
} CozgeltAnswer;

#define COZGELT_ANSWER {sizeof(CozgeltAnswer), 0, 0, 0, 0}

enum {
    COZGELT_ACCEPTED = 0,         /* the output stands at the front of room, if needed <= room_len; else room is as it was */
    COZGELT_REFUSED = 1,          /* the same of what stands before the faulty part */
    COZGELT_NO_MEMORY = 2,        /* malloc gave nothing. Here, and with all statuses below, room is as it was */
    COZGELT_INPUT_LIMIT = 3,      /* stream or catalogue are longer than limits->input */
    COZGELT_NO_OUTPUT_MEMORY = 4, /* malloc gave nothing for the output, or room_len is above 2^47 */
    COZGELT_INVALID = 5,          /* structs of another size, limits above their maxima, or wrong numbers of a profile or in a part */
    COZGELT_CATALOG_REFUSED = 6,  /* the catalogue is refused: reason and place are of it */
    COZGELT_NO_ROOM = 7           /* cozgelt_part alone: room or kept is too short for what would be taken */
};

/* Which values a stream may have: the profile of the calls with _with in their names. The others are these at COZGELT_STRICT. */
enum {
    COZGELT_STRICT = 0, /* no float but null.float: any other is refused (Float, 11) */
    COZGELT_FLOATS = 1  /* floats too */
};

/* For catalog and catalog_len, where there is none. */
#define COZGELT_NO_CATALOG (const uint8_t *)"", 0

/* The version that the library was built as, to compare with COZGELT_VERSION. */
uint32_t cozgelt_version(void);

/* The stream, text or binary, as canonical text: each value at top level is a line. catalog: a stream of shared symbol tables, for
 * the imports of the other. Where room_len is 0, a call tells how long the output is. */
uint32_t cozgelt_to_text(const CozgeltLimits *limits, const uint8_t *catalog, size_t catalog_len, const uint8_t *stream,
                         size_t stream_len, uint8_t *room, size_t room_len, CozgeltAnswer *answer);

/* The stream, a text, as canonical binary. One that is binary is refused (SameForm, 22, at 0). */
uint32_t cozgelt_to_binary(const CozgeltLimits *limits, const uint8_t *catalog, size_t catalog_len, const uint8_t *stream,
                           size_t stream_len, uint8_t *room, size_t room_len, CozgeltAnswer *answer);

/* Whether the stream is accepted. The output is empty. */
uint32_t cozgelt_check(const CozgeltLimits *limits, const uint8_t *catalog, size_t catalog_len, const uint8_t *stream,
                       size_t stream_len, uint8_t *room, size_t room_len, CozgeltAnswer *answer);

/* The three with a profile; the catalogue is always read by COZGELT_STRICT. A float's canonical text has the fewest digits that are
 * read as it (1.5e0, -0e0, 5e-324, nan, +inf, -inf), its canonical binary the fewest octets: none for 0e0, 4 where binary32 has its
 * value, else 8. */
uint32_t cozgelt_to_text_with(uint32_t profile, const CozgeltLimits *limits, const uint8_t *catalog, size_t catalog_len,
                              const uint8_t *stream, size_t stream_len, uint8_t *room, size_t room_len, CozgeltAnswer *answer);

uint32_t cozgelt_to_binary_with(uint32_t profile, const CozgeltLimits *limits, const uint8_t *catalog, size_t catalog_len,
                                const uint8_t *stream, size_t stream_len, uint8_t *room, size_t room_len,
                                CozgeltAnswer *answer);

uint32_t cozgelt_check_with(uint32_t profile, const CozgeltLimits *limits, const uint8_t *catalog, size_t catalog_len,
                            const uint8_t *stream, size_t stream_len, uint8_t *room, size_t room_len, CozgeltAnswer *answer);

/* The stream, text or binary, as pretty text, with a profile: the canonical text, but each member of a container stands on a line
 * of its own, after two blanks for each container that is open there, and after a field's colon there is a blank. */
uint32_t cozgelt_to_pretty_with(uint32_t profile, const CozgeltLimits *limits, const uint8_t *catalog, size_t catalog_len,
                                const uint8_t *stream, size_t stream_len, uint8_t *room, size_t room_len,
                                CozgeltAnswer *answer);

/* The stream, text or binary, as canonical binary, with a profile. */
uint32_t cozgelt_rewrite_with(uint32_t profile, const CozgeltLimits *limits, const uint8_t *catalog, size_t catalog_len,
                              const uint8_t *stream, size_t stream_len, uint8_t *room, size_t room_len, CozgeltAnswer *answer);

/* A catalogue that is loaded once, for any number of calls: one handle to its tables, or to none. What it points to is the library's.
 * Each thread takes a handle of its own, by cozgelt_catalog_share; or one goes from thread to thread, by a lock, the start of a
 * thread or its join. */
typedef struct {
    void *tables;
} CozgeltCatalog;

/* No tables. */
#define COZGELT_CATALOG {0}

/* Loads a catalogue, with the statuses, reason and place of the calls that are given its bytes. At COZGELT_ACCEPTED the handle has its
 * tables, and those that it had are given back; else it is as it was. It keeps limits->symbols at most, as they are counted, and two
 * small blocks; while it loads, what a call counts for a catalogue, beside the tables that it had. */
uint32_t cozgelt_catalog_load(const CozgeltLimits *limits, const uint8_t *catalog, size_t catalog_len, CozgeltCatalog *loaded,
                              CozgeltAnswer *answer);

/* Lets another handle have the tables of one too, which takes a small block; those that the other had are given back. COZGELT_ACCEPTED,
 * or COZGELT_NO_MEMORY, and then the other is as it was. */
uint32_t cozgelt_catalog_share(CozgeltCatalog *loaded, CozgeltCatalog *other);

/* Leaves a handle without tables, so that a second call does nothing. They are freed with the last handle that has them. */
void cozgelt_catalog_free(CozgeltCatalog *loaded);

/* The calls with a profile, with the tables of a handle for the stream's imports: they answer what those calls answer for the bytes of
 * the catalogue, where they are one under these limits too. */
uint32_t cozgelt_to_text_loaded(uint32_t profile, const CozgeltLimits *limits, CozgeltCatalog *loaded, const uint8_t *stream,
                                size_t stream_len, uint8_t *room, size_t room_len, CozgeltAnswer *answer);

uint32_t cozgelt_to_pretty_loaded(uint32_t profile, const CozgeltLimits *limits, CozgeltCatalog *loaded, const uint8_t *stream,
                                  size_t stream_len, uint8_t *room, size_t room_len, CozgeltAnswer *answer);

uint32_t cozgelt_to_binary_loaded(uint32_t profile, const CozgeltLimits *limits, CozgeltCatalog *loaded, const uint8_t *stream,
                                  size_t stream_len, uint8_t *room, size_t room_len, CozgeltAnswer *answer);

uint32_t cozgelt_rewrite_loaded(uint32_t profile, const CozgeltLimits *limits, CozgeltCatalog *loaded, const uint8_t *stream,
                                size_t stream_len, uint8_t *room, size_t room_len, CozgeltAnswer *answer);

uint32_t cozgelt_check_loaded(uint32_t profile, const CozgeltLimits *limits, CozgeltCatalog *loaded, const uint8_t *stream,
                              size_t stream_len, uint8_t *room, size_t room_len, CozgeltAnswer *answer);

/* As what a stream in parts is written. */
enum {
    COZGELT_AS_TEXT = 0,      /* canonical text */
    COZGELT_AS_PRETTY = 1,    /* pretty text */
    COZGELT_AS_BINARY = 2,    /* canonical binary, of a text; one that is binary is refused (SameForm, 22, at 0) */
    COZGELT_AS_REWRITTEN = 3, /* canonical binary, of either */
    COZGELT_AS_NOTHING = 4    /* nothing: it is checked */
};

/* A part of a stream. What is kept of the parts before it stands at the front of a buffer of the caller's, who only passes it on: bytes
 * of symbol tables and version markers. With these 40 bytes, it is all that the next call needs: nothing stays in the library. */
typedef struct {
    uint32_t size;    /* sizeof(CozgeltPart) */
    uint32_t profile; /* COZGELT_STRICT, COZGELT_FLOATS: the same for all parts, as limits, catalogue and `to` */
    uint32_t to;      /* COZGELT_AS_TEXT, .. */
    uint32_t last;    /* 1 where no bytes follow these, else 0 */
    uint64_t kept;    /* how many bytes are kept, at most kept_len, else COZGELT_INVALID: 0 where a stream begins; a call changes it */
    uint64_t taken;   /* COZGELT_ACCEPTED: how many of the bytes were taken */
    uint64_t keeps;   /* COZGELT_ACCEPTED, COZGELT_NO_ROOM: how many bytes are kept then */
} CozgeltPart;

#define COZGELT_PART {sizeof(CozgeltPart), COZGELT_STRICT, COZGELT_AS_TEXT, 0, 0, 0, 0}

/* Takes a stretch of a stream, from the first of these bytes on, and writes what it has to the front of room: values up to the next symbol
 * table or version marker, or such tables; a text is cut at ends of lines alone. The next call is given the bytes behind those that were
 * taken, and more of them once none are taken. loaded: a handle, also one without tables.
 *  - COZGELT_ACCEPTED: answer has `values` and `needed` of what was taken, and kept what is kept then. Where `last` is 0 and none are
 *    taken nothing was done, and more bytes are needed; where it is 1 all are taken, and the stream is accepted.
 *  - COZGELT_REFUSED: the stream is refused, whatever follows. place is counted from the first of these bytes. What stands before the
 *    fault is written if it fits, as by the other calls. Of some faults this is told only where `last` is 1.
 *  - COZGELT_NO_ROOM: answer->needed and part->keeps say how long room and kept have to be. None are taken, and kept is as it was: call
 *    again with longer ones, with the same bytes in kept, wherever it stands; or, where room cannot grow, with fewer bytes, and `last` 0.
 *    A kept of part->kept + bytes_len + 4 always does: never more are kept than were and are given, or 4 (the clause `short` of
 *    `run_part`).
 *  - COZGELT_INPUT_LIMIT: only where what is kept and these bytes are longer than limits->input. It never counts the whole stream.
 * The outputs joined are those of the calls on the whole stream. As binary they are a stream that shows what the text shows that was
 * written so, where it is accepted, limits->depth is at least 2, and limits->scalar at least 16 and limits->symbols. Of binary written as
 * binary that is only tested. */
uint32_t cozgelt_part(const CozgeltLimits *limits, CozgeltCatalog *loaded, CozgeltPart *part, const uint8_t *bytes, size_t bytes_len,
                      uint8_t *kept, size_t kept_len, uint8_t *room, size_t room_len, CozgeltAnswer *answer);

/* The name of a reason, as REFUSALS.md has it; "" of any other number. */
static inline const char *cozgelt_reason(uint32_t number) {
    static const char *const names[] = {
        "", "Truncated", "BadDescriptor", "BadVar", "Overrun", "BadVersion", "BadAnnotation", "BadNumber", "BadTimestamp",
        "Range", "BadText", "Float", "BadToken", "BadLob", "DepthLimit", "ScalarLimit", "AnnotationLimit", "BadSymbol",
        "UnknownSymbol", "BadTable", "SymbolLimit", "ValueLimit", "SameForm", "CatalogEntry"};
    return number < sizeof names / sizeof *names ? names[number] : "";
}

#ifdef __cplusplus
}
#endif

#endif
