/* Locks a recording of 4 MiB by cbcs 1:9, is refused under another KID, opens it again and compares. */
#include "cenc.h"

#include <stdio.h>
#include <stdlib.h>
#include <string.h>

#define LENGTH ((size_t)4 << 20)

static const uint8_t scheme[] = {'c', 'b', 'c', 's'};

/* Version 1, pattern 1:9, protected, KID 01 to 10, a constant IV of 16 bytes aa. */
static const uint8_t box[] = {
    0,    0,    0,    49,   't',  'e',  'n',  'c',  1,    0,    0,    0,    0,    0x19, 1,    0,
    0x01, 0x02, 0x03, 0x04, 0x05, 0x06, 0x07, 0x08, 0x09, 0x0a, 0x0b, 0x0c, 0x0d, 0x0e, 0x0f, 0x10,
    16,   0xaa, 0xaa, 0xaa, 0xaa, 0xaa, 0xaa, 0xaa, 0xaa, 0xaa, 0xaa, 0xaa, 0xaa, 0xaa, 0xaa, 0xaa, 0xaa,
};

/* The KID, then the key. */
static const uint8_t key_record[CENC_KEY_RECORD_LENGTH] = {
    0x01, 0x02, 0x03, 0x04, 0x05, 0x06, 0x07, 0x08, 0x09, 0x0a, 0x0b, 0x0c, 0x0d, 0x0e, 0x0f, 0x10,
    0x2b, 0x7e, 0x15, 0x16, 0x28, 0xae, 0xd2, 0xa6, 0xab, 0xf7, 0x15, 0x88, 0x09, 0xcf, 0x4f, 0x3c,
};

static int stop(const char *what) {
    fprintf(stderr, "recording: %s\n", what);
    return EXIT_FAILURE;
}

static int refused(const char *call, uint8_t number) {
    fprintf(stderr, "recording: %s refused %d: %s\n", call, number, cenc_text(number));
    return EXIT_FAILURE;
}

static void show(const uint8_t *block) {
    for (size_t i = 0; i < 16; i++) {
        printf("%02x", block[i]);
    }
}

int main(void) {
    uint8_t *recording = malloc(LENGTH);
    uint8_t *sample = malloc(LENGTH);
    if (recording == NULL || sample == NULL) {
        return stop("no memory");
    }
    for (size_t i = 0; i < LENGTH; i++) {
        recording[i] = (uint8_t)(i % 251);
    }
    memcpy(sample, recording, LENGTH);

    /* cbcs has its IV in the box, and no entries mean the whole sample: no auxiliary data. */
    uint8_t number = cenc_lock(scheme, sizeof scheme, box, sizeof box, NULL, 0, key_record, sizeof key_record, sample, LENGTH);
    if (number != CENC_DONE) {
        return refused("cenc_lock", number);
    }
    if (memcmp(sample, recording, 16) == 0 || memcmp(sample + 16, recording + 16, 144) != 0) {
        return stop("locking changed other bytes than the pattern says");
    }
    printf("locked %zu bytes by cbcs 1:9; the first block is now ", LENGTH);
    show(sample);
    printf("\n");

    /* Under another KID the call is refused, and the sample stays as it is. */
    uint8_t other_record[CENC_KEY_RECORD_LENGTH];
    memcpy(other_record, key_record, sizeof other_record);
    other_record[0] = 0xff;
    number = cenc_open(scheme, sizeof scheme, box, sizeof box, NULL, 0, other_record, sizeof other_record, sample, LENGTH);
    if (number != CENC_REFUSED_KID) {
        return stop("another KID was not refused as such");
    }
    printf("refused %d: %s\n", number, cenc_text(number));

    number = cenc_open(scheme, sizeof scheme, box, sizeof box, NULL, 0, key_record, sizeof key_record, sample, LENGTH);
    if (number != CENC_DONE) {
        return refused("cenc_open", number);
    }
    if (memcmp(sample, recording, LENGTH) != 0) {
        return stop("opening did not give the recording back");
    }
    printf("opened %zu bytes; the first block is again ", LENGTH);
    show(sample);
    printf(", and all are as before\n");
    free(sample);
    free(recording);
    return EXIT_SUCCESS;
}
