/*
 * Calls cenc_lock and cenc_open on generated inputs, mostly sound and then damaged: `calls SEED SECONDS [FIRST]`, from call
 * FIRST on. The archive is not built with the sanitizers, so they see only what it copies by memcpy. A range therefore lies
 * against a page that can't be touched, behind it or before it, or in a block of the heap of exactly its length.
 */
#define _GNU_SOURCE
#include "cenc.h"

#include <inttypes.h>
#include <sanitizer/common_interface_defs.h>
#include <stdio.h>
#include <stdlib.h>
#include <string.h>
#include <sys/mman.h>
#include <time.h>

enum { SCHEME, BOX, AUXILIARY, KEYS, SAMPLE, RANGES };

enum { SHORT = 8192, LINE = 120000, MARGIN = 32, FILLED = 0xa5 };

/* Small xorshift. */
static uint64_t state;

static uint64_t next(void) {
    state ^= state << 13;
    state ^= state >> 7;
    state ^= state << 17;
    return state;
}

/* From 0 to limit - 1. */
static size_t below(size_t limit) {
    return (size_t)((next() >> 16) % limit);
}

static int once_in(size_t times) {
    return below(times) == 0;
}

#define PICK(choices) ((choices)[below(sizeof(choices) / sizeof *(choices))])

static void fill(uint8_t *bytes, size_t length) {
    for (size_t i = 0; i < length; i += 8) {
        uint64_t word = next();
        memcpy(bytes + i, &word, length - i < 8 ? length - i : 8);
    }
}

static void put(uint8_t *bytes, size_t count, uint64_t number) {
    for (size_t i = 0; i < count; i++) {
        bytes[i] = (uint8_t)(number >> 8 * (count - 1 - i));
    }
}

/* The inputs of a call as they are made; room for a sample of a byte more than is allowed. */
static struct {
    uint8_t *bytes;
    size_t length;
} made[RANGES];

static size_t room(int range) {
    return range == SAMPLE ? CENC_MAX_SAMPLE_LENGTH + 1 : SHORT;
}

static uint64_t seed, call;

static void tell(void) {
    fprintf(stderr, "calls: to make this call again: target/fuzz/calls %" PRIu64 " 1 %" PRIu64 "\n", seed, call);
}

/* Says what is wrong, and the first of the two calls as a line for replay, if a line can hold it. */
static void fail(const char *what, int number) {
    fprintf(stderr, "calls: %s (answered %d)\n", what, number);
    if (made[SAMPLE].length <= LINE) {
        fputs(call % 2 == 0 ? "lock" : "open", stderr);
        for (int range = 0; range < RANGES; range++) {
            fputs(made[range].length == 0 ? " -" : " ", stderr);
            for (size_t i = 0; i < made[range].length; i++) {
                fprintf(stderr, "%02x", made[range].bytes[i]);
            }
        }
        fputs("\n", stderr);
    }
    tell();
    exit(EXIT_FAILURE);
}

/* Every kind of accepted box. The protected ones come first. */
static const struct kind {
    const char *code;
    uint8_t version, protected, iv_size;
} kinds[] = {
    {"cenc", 0, 1, 8}, {"cenc", 0, 1, 16}, {"cenc", 1, 1, 8}, {"cenc", 1, 1, 16}, {"cbc1", 0, 1, 16}, {"cbc1", 1, 1, 16},
    {"cens", 0, 1, 8}, {"cens", 0, 1, 16}, {"cens", 1, 1, 8}, {"cens", 1, 1, 16}, {"cbcs", 0, 1, 0},  {"cbcs", 1, 1, 0},
    {"cbcs", 1, 1, 0}, {"cbcs", 1, 1, 0},  {"cenc", 0, 0, 0}, {"cenc", 1, 0, 0},  {"cbc1", 0, 0, 0},  {"cbc1", 1, 0, 0},
    {"cens", 0, 0, 0}, {"cens", 1, 0, 0},  {"cbcs", 0, 0, 0}, {"cbcs", 1, 0, 0},
};

enum { PROTECTED_KINDS = 14, KINDS = sizeof kinds / sizeof *kinds };

static void make_box(const struct kind *kind) {
    static const uint8_t crypts[] = {1, 1, 1, 2, 5, 14, 15}, skips[] = {0, 0, 1, 2, 9, 9, 15};
    int constant = kind->protected == 1 && kind->iv_size == 0;
    uint8_t *box = made[BOX].bytes;
    size_t length = constant ? 49 : 32;
    made[BOX].length = length;
    memset(box, 0, length);
    put(box, 4, length);
    memcpy(box + 4, "tenc", 4);
    box[8] = kind->version;
    /* In version 0 the pattern is 0:0, in version 1 sometimes. */
    if (kind->version == 1 && kind->protected == 1 && kind->code[3] == 's' && !once_in(4)) {
        box[13] = (uint8_t)(PICK(crypts) << 4);
        box[13] |= PICK(skips);
    }
    box[14] = kind->protected;
    box[15] = kind->iv_size;
    /* A KID of zeros but for one byte, sometimes; where the track isn't protected, that byte may be zero too. */
    if (once_in(8)) {
        box[16 + below(16)] = (uint8_t)(kind->protected == 1 ? 1 + below(255) : below(2));
    } else {
        fill(box + 16, 16);
    }
    if (constant) {
        box[32] = 16;
        fill(box + 33, 16);
    }
}

/* The length of an entry's clear and protected bytes, one that is allowed. */
static void entry(const struct kind *kind, size_t *clear, size_t *protected) {
    static const size_t lengths[] = {0, 1, 2, 15, 16, 17, 31, 32, 33, 48, 64, 100, 160, 161, 320, 1000};
    *clear = once_in(1000) ? 65535 : PICK(lengths);
    *protected = once_in(1000) ? below(70000) : PICK(lengths);
    if (strcmp(kind->code, "cbc1") == 0) {
        *protected -= *protected % 16;
    }
    if (*clear + *protected == 0) {
        *clear = 1;
    }
}

/* The IV and, in half of the cases, entries, with at most one fault among them; answers the sample's length. */
static size_t make_auxiliary(const struct kind *kind, int faulty) {
    uint8_t *bytes = made[AUXILIARY].bytes;
    size_t at = kind->iv_size, length = 0;
    fill(bytes, at);
    if (at == 16 && once_in(2)) {
        put(bytes + 8, 8, UINT64_MAX - below(6));
    }
    made[AUXILIARY].length = at;
    if (kind->protected == 0 || once_in(2)) {
        return once_in(16) ? below(5000) : below(200);
    }
    int empty = once_in(16);
    size_t count = once_in(8) ? 1 + below(CENC_MAX_ENTRIES) : 1 + below(5);
    size_t fault = faulty ? below(8) : 8;
    if (fault == 0) {
        count = CENC_MAX_ENTRIES + 1 + below(3);
    }
    put(bytes + at, 2, count);
    at += 2;
    for (size_t i = 0; i < count; i++) {
        size_t clear = 0, protected = 0;
        if (!empty) {
            entry(kind, &clear, &protected);
        }
        if (fault == 1 && i == count - 1) {
            clear = protected = 0;
        }
        if (fault == 2 && i == count - 1) {
            protected ^= (size_t)1 << below(5);
        }
        put(bytes + at, 2, clear);
        put(bytes + at + 2, 4, fault == 3 && i == 0 ? UINT32_MAX - below(16) : protected);
        at += 6;
        length += clear + protected;
    }
    made[AUXILIARY].length = at;
    return length;
}

/* Changes a range's bytes or length. */
static void damage(int range) {
    static const uint8_t edges[] = {0, 1, 2, 7, 8, 9, 15, 16, 17, 32, 49, 64, 65, 127, 128, 255};
    uint8_t *bytes = made[range].bytes;
    size_t *length = &made[range].length;
    size_t place = *length == 0 ? 0 : below(*length);
    switch (*length == 0 ? 4 : below(7)) {
    case 0:
    case 1:
        bytes[place] ^= (uint8_t)(1 << below(8));
        break;
    case 2:
        bytes[place] = PICK(edges);
        break;
    case 3:
        *length = once_in(2) ? *length - 1 : place;
        break;
    case 4: {
        size_t more = once_in(2) ? 1 : 1 + below(40);
        if (*length + more <= room(range)) {
            fill(bytes + *length, more);
            *length += more;
        }
        break;
    }
    case 5:
        memmove(bytes + place, bytes + place + 1, *length - place - 1);
        *length -= 1;
        break;
    default:
        if (*length + 1 <= room(range)) {
            memmove(bytes + place + 1, bytes + place, *length - place);
            bytes[place] = (uint8_t)next();
            *length += 1;
        }
    }
    if (range == BOX && *length >= 4 && once_in(2)) {
        put(bytes, 4, *length);
    }
}

/* Makes the inputs; answers whether they are sound. */
static int make(void) {
    int sound = once_in(2);
    const struct kind *kind = &kinds[once_in(8) ? below(KINDS) : below(PROTECTED_KINDS)];
    memcpy(made[SCHEME].bytes, kind->code, 4);
    made[SCHEME].length = 4;
    make_box(kind);
    memcpy(made[KEYS].bytes, made[BOX].bytes + 16, 16);
    fill(made[KEYS].bytes + 16, 16);
    made[KEYS].length = CENC_KEY_RECORD_LENGTH;
    made[SAMPLE].length = make_auxiliary(kind, !sound && once_in(2));
    if (!sound) {
        if (once_in(16)) {
            memset(made[BOX].bytes + 16, 0, 16);
            memset(made[KEYS].bytes, 0, 16);
        }
        if (once_in(4096)) {
            made[SAMPLE].length = CENC_MAX_SAMPLE_LENGTH + 1;
        }
        for (size_t faults = below(4); faults > 0; faults--) {
            damage(once_in(16) ? SCHEME : BOX + (int)below(RANGES - BOX));
        }
    }
    fill(made[SAMPLE].bytes, made[SAMPLE].length);
    return sound;
}

/* Whether an accepted box is that of a protected track under the zero KID. */
static int has_zero_kid(void) {
    static const uint8_t zero[16];
    return made[BOX].bytes[14] == 1 && memcmp(made[BOX].bytes + 16, zero, sizeof zero) == 0;
}

/* Where the ranges lie in a call: pages with one before and one behind that can't be touched, or a block of the heap. */
static struct {
    uint8_t *pages, *heap, *bytes, *free;
    size_t pages_length;
} lying[RANGES];

static void map(int range) {
    size_t page = 4096, length = (room(range) + MARGIN + page - 1) / page * page;
    uint8_t *pages = mmap(NULL, length + 2 * page, PROT_NONE, MAP_PRIVATE | MAP_ANONYMOUS, -1, 0);
    made[range].bytes = malloc(room(range));
    if (pages == MAP_FAILED || mprotect(pages + page, length, PROT_READ | PROT_WRITE) != 0 || made[range].bytes == NULL) {
        fprintf(stderr, "calls: no memory\n");
        exit(EXIT_FAILURE);
    }
    lying[range].pages = pages + page;
    lying[range].pages_length = length;
}

/* Lays a range against the page behind it or before it, with a filled margin on the other side, or on the heap. */
static void lay(int range) {
    size_t length = made[range].length;
    size_t way = below(3);
    lying[range].heap = lying[range].free = NULL;
    if (way == 0) {
        lying[range].bytes = lying[range].pages + lying[range].pages_length - length;
        lying[range].free = lying[range].bytes - MARGIN;
    } else if (way == 1) {
        lying[range].bytes = lying[range].pages;
        lying[range].free = lying[range].bytes + length;
    } else {
        lying[range].heap = malloc(length);
        if (lying[range].heap == NULL) {
            fail("no memory", 0);
        }
        lying[range].bytes = lying[range].heap;
    }
    if (lying[range].free != NULL) {
        memset(lying[range].free, FILLED, MARGIN);
    }
    if (length > 0) {
        memcpy(lying[range].bytes, made[range].bytes, length);
    } else if (once_in(2)) {
        lying[range].bytes = NULL;
    }
}

static int as_made(int range) {
    return made[range].length == 0 || memcmp(lying[range].bytes, made[range].bytes, made[range].length) == 0;
}

static int margin_as_filled(int range) {
    for (size_t i = 0; lying[range].free != NULL && i < MARGIN; i++) {
        if (lying[range].free[i] != FILLED) {
            return 0;
        }
    }
    return 1;
}

typedef uint8_t function(const uint8_t *, size_t, const uint8_t *, size_t, const uint8_t *, size_t, const uint8_t *, size_t,
                         uint8_t *, size_t);

/* One call; nothing but the sample may change, and that only if it is accepted. */
static int try(function *called) {
    int number = called(lying[SCHEME].bytes, made[SCHEME].length, lying[BOX].bytes, made[BOX].length, lying[AUXILIARY].bytes,
                        made[AUXILIARY].length, lying[KEYS].bytes, made[KEYS].length, lying[SAMPLE].bytes, made[SAMPLE].length);
    if (number > 12) {
        fail("a number above 12", number);
    }
    for (int range = 0; range < RANGES; range++) {
        if (range != SAMPLE && !as_made(range)) {
            fail("an input was changed", number);
        }
        if (!margin_as_filled(range)) {
            fail("bytes beside a range were changed", number);
        }
    }
    if (number != 0 && !as_made(SAMPLE)) {
        fail("a refused call changed the sample", number);
    }
    return number;
}

int main(int count, char **words) {
    static uint64_t answered[13];
    if (count < 3 || count > 4) {
        fprintf(stderr, "usage: calls SEED SECONDS [FIRST]\n");
        return EXIT_FAILURE;
    }
    seed = strtoull(words[1], NULL, 10);
    time_t end = time(NULL) + (time_t)strtoul(words[2], NULL, 10);
    uint64_t first = count == 4 ? strtoull(words[3], NULL, 10) : 0;
    __sanitizer_set_death_callback(tell);
    for (int range = 0; range < RANGES; range++) {
        map(range);
    }
    for (call = first; call % 64 != 0 || time(NULL) < end; call++) {
        /* Each call has numbers of its own, so that it can be made again without those before it. */
        state = (seed + 1) * 0x9e3779b97f4a7c15 ^ (call + 1) * 0xbf58476d1ce4e5b9;
        state += state == 0;
        next();
        int sound = make();
        for (int range = 0; range < RANGES; range++) {
            lay(range);
        }
        function *called = call % 2 == 0 ? cenc_lock : cenc_open, *undoing = call % 2 == 0 ? cenc_open : cenc_lock;
        int number = try(called);
        if (sound && number != 0) {
            fail("sound inputs were refused", number);
        }
        if (number == 0 && has_zero_kid()) {
            fail("a protected track under the zero KID was accepted", number);
        }
        if (try(undoing) != number) {
            fail("locking and opening do not answer the same number", number);
        }
        if (!as_made(SAMPLE)) {
            fail("locking and opening did not give the bytes back", number);
        }
        for (int range = 0; range < RANGES; range++) {
            free(lying[range].heap);
        }
        answered[number]++;
    }
    printf("calls: %" PRIu64 " inputs locked and opened in pages and heap blocks of their own; answered", call - first);
    for (int number = 0; number <= 12; number++) {
        printf(" %d:%" PRIu64, number, answered[number]);
    }
    printf("\n");
    return EXIT_SUCCESS;
}
