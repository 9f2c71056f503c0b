/*
 * Writes changed lines for replay: `lines SEED FROM TO COUNT` takes lines of the file FROM, writes COUNT of them with changed,
 * added and missing bytes to the file TO, and prints how many lines those are, a newline being a byte like any other.
 */
#include <inttypes.h>
#include <stdio.h>
#include <stdlib.h>
#include <string.h>

/* Replay's longest line, and the longest written here. */
enum { LONGEST = 262144, ROOM = 4 * LONGEST };

/* Small xorshift. */
static uint64_t state;

static uint64_t next(void) {
    state ^= state << 13;
    state ^= state >> 7;
    state ^= state << 17;
    return state;
}

/* From 0 to limit - 1. */
static size_t below(size_t limit) {
    return (size_t)((next() >> 16) % limit);
}

static int once_in(size_t times) {
    return below(times) == 0;
}

static char digit(void) {
    return "0123456789abcdef"[below(16)];
}

static int is_digit(char c) {
    return (c >= '0' && c <= '9') || (c >= 'a' && c <= 'f');
}

/* A byte that lines are made of, or any at all. */
static char byte(void) {
    static const char usual[] = "0123456789abcdef    ---//:,x\n";
    return once_in(4) ? (char)next() : usual[below(sizeof usual - 1)];
}

static char line[ROOM];
static size_t length;

/* Puts count bytes at a place: digits, one byte again and again, or any bytes; those are not newlines if they are many. */
static void insert(size_t place, size_t count, size_t way) {
    if (count > ROOM - length) {
        count = ROOM - length;
    }
    memmove(line + place + count, line + place, length - place);
    length += count;
    char first = way == 0 ? digit() : byte();
    for (size_t i = 0; i < count; i++) {
        char any = way == 0 ? digit() : way == 1 ? first : byte();
        line[place + i] = count > 40 && any == '\n' ? '0' : any;
    }
}

static void delete(size_t place, size_t count) {
    if (count > length - place) {
        count = length - place;
    }
    memmove(line + place, line + place + count, length - place - count);
    length -= count;
}

static void change(void) {
    static const size_t lengths[] = {1000, 65535, 65536, 131072, LONGEST - 1, LONGEST, LONGEST + 1, 2 * LONGEST, ROOM};
    size_t place = below(length + 1);
    int at_digit = place < length && is_digit(line[place]);
    switch (below(12)) {
    case 0:
    case 1:
    case 2:
    case 3:
        if (at_digit) {
            line[place] = digit();
        }
        break;
    case 4:
        if (at_digit) {
            insert(place, 2 * (1 + below(32)), 0);
        }
        break;
    case 5:
        if (at_digit) {
            delete(place, 2);
        }
        break;
    case 6:
        if (place < length) {
            line[place] ^= (char)(1 << below(8));
        }
        break;
    case 7:
        if (place < length) {
            line[place] = byte();
        }
        break;
    case 8:
        insert(place, 1, 2);
        break;
    case 9:
        insert(place, 1 + below(40), below(3));
        break;
    case 10:
        delete(place, 1 + below(40));
        break;
    default:
        /* Up to a length at an edge, a newline being one byte of it; seldom, for these take long. */
        if (once_in(100)) {
            size_t edge = lengths[below(sizeof lengths / sizeof *lengths)] + below(2);
            if (edge > length) {
                insert(place, edge - length, below(3));
            }
        }
    }
}

static int stop(const char *what) {
    fprintf(stderr, "lines: %s\n", what);
    return EXIT_FAILURE;
}

int main(int count, char **words) {
    if (count != 5) {
        return stop("usage: lines SEED FROM TO COUNT");
    }
    state = (strtoull(words[1], NULL, 10) + 1) * 0x9e3779b97f4a7c15;
    state += state == 0;
    FILE *from = fopen(words[2], "rb"), *to = fopen(words[3], "wb");
    if (from == NULL || to == NULL) {
        return stop("a file can't be opened");
    }
    static char text[1 << 20];
    static size_t starts[1 << 16];
    size_t size = fread(text, 1, sizeof text, from), lines = 0, begin = 0;
    for (size_t i = 0; i < size && lines < sizeof starts / sizeof *starts - 1; i++) {
        if (text[i] == '\n') {
            starts[lines++] = begin;
            begin = i + 1;
        }
    }
    starts[lines] = begin;
    if (lines == 0) {
        return stop("no lines");
    }
    uint64_t written = 0;
    char last = '\n';
    for (uint64_t n = strtoull(words[4], NULL, 10); n > 0; n--) {
        size_t chosen = below(lines);
        length = starts[chosen + 1] - starts[chosen];
        memcpy(line, text + starts[chosen], length);
        for (size_t changes = 1 + below(3); changes > 0; changes--) {
            change();
        }
        /* The last one may lack its newline. */
        for (size_t i = 0; i < length; i++) {
            written += line[i] == '\n';
        }
        if (length > 0) {
            last = line[length - 1];
            fwrite(line, 1, length, to);
        }
    }
    written += last != '\n';
    if (fclose(to) != 0 || fclose(from) != 0) {
        return stop("a file can't be written");
    }
    printf("%" PRIu64 "\n", written);
    return EXIT_SUCCESS;
}
