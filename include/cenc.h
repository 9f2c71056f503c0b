/* Locking and opening a whole sample in place by Common Encryption (ISO/IEC 23001-7: cenc, cbc1, cens and cbcs). */
#ifndef CENC_H
#define CENC_H

#include <stddef.h>
#include <stdint.h>

#ifdef __cplusplus
extern "C" {
#endif

/*
 * The version of this header and its archive. While the major number is 0, a higher minor number may take names away or
 * change what they mean. From 1 on only a higher major number may, and a higher minor number adds.
 */
#define CENC_VERSION_MAJOR 0
#define CENC_VERSION_MINOR 1

/* The most that a call takes: bytes of a sample, subsample entries of a sample, key records. */
#define CENC_MAX_SAMPLE_LENGTH 16777216
#define CENC_MAX_ENTRIES 64
#define CENC_MAX_KEY_RECORDS 1

/* The bytes of a key record: the KID, then the key, 16 each. */
#define CENC_KEY_RECORD_LENGTH 32

/*
 * The numbers answered: the lowest that applies. 5 and 6 are skipped for an unprotected track. Among the fields that aren't
 * allowed (4) is a KID of sixteen zero bytes on a protected track.
 */
enum cenc_number {
    CENC_DONE = 0,                 /* done */
    CENC_REFUSED_SCHEME = 1,       /* the scheme code isn't four bytes naming one of the four */
    CENC_REFUSED_FRAME = 2,        /* the box has under 32 bytes, or its size field isn't its length, or its type isn't tenc */
    CENC_REFUSED_VERSION = 3,      /* version above 1, flags or zero byte not zero, or a pattern in version 0 */
    CENC_REFUSED_FIELDS = 4,       /* the fields aren't allowed, or the box is longer or shorter than they call for */
    CENC_REFUSED_KEY_RECORD = 5,   /* key record not 32 bytes (KID, then key) */
    CENC_REFUSED_KID = 6,          /* the key record's KID isn't the track's */
    CENC_REFUSED_LENGTH = 7,       /* sample over 16,777,216 bytes */
    CENC_REFUSED_SIZE = 8,         /* auxiliary data of the wrong size, or an entry count of 0 */
    CENC_REFUSED_ENTRIES = 9,      /* more than 64 entries */
    CENC_REFUSED_EMPTY_ENTRY = 10, /* an entry 0 and 0 in a sample that isn't empty */
    CENC_REFUSED_SUM = 11,         /* the entries' lengths don't add up to the sample's */
    CENC_REFUSED_REMAINDER = 12    /* cbc1 entry whose protected length isn't a multiple of 16 */
};

/*
 * scheme is the four bytes of the scheme code, box the track encryption box (tenc), auxiliary the sample's auxiliary data
 * (its IV, then nothing or the subsample entries), key_record the KID and then the key, sample the bytes to change.
 *
 * Each call answers one of the numbers above. A refused call changes nothing; no call writes outside the sample.
 *
 * The caller owes: a range is readable, and the sample writable, over its whole length; the sample overlaps no other
 * range; a pointer is NULL only if its length is 0, which is an empty range. Nothing is kept for the next call, and calls on
 * samples of their own may run at the same time.
 *
 * The caller has to know: Nothing authenticates a sample. With a wrong key under the right KID the answer is CENC_DONE, and the
 * sample is garbage; a sample that was changed may be answered CENC_DONE as well. Copies of the key and of its round keys stay on
 * the stack after a call. A call looks tables up by secret bytes, so that its time may depend on them.
 */
uint8_t cenc_lock(const uint8_t *scheme, size_t scheme_length,
                  const uint8_t *box, size_t box_length,
                  const uint8_t *auxiliary, size_t auxiliary_length,
                  const uint8_t *key_record, size_t key_record_length,
                  uint8_t *sample, size_t sample_length);

uint8_t cenc_open(const uint8_t *scheme, size_t scheme_length,
                  const uint8_t *box, size_t box_length,
                  const uint8_t *auxiliary, size_t auxiliary_length,
                  const uint8_t *key_record, size_t key_record_length,
                  uint8_t *sample, size_t sample_length);

/*
 * A number in words that can stand behind "refused 7: ". Every number of the library and its programs has its own words; any
 * other is an "unknown number".
 */
static inline const char *cenc_text(uint8_t number) {
    switch (number) {
    case 0: return "done";
    case 1: return "the scheme code isn't four bytes naming one of the four";
    case 2: return "the box has under 32 bytes, or its size field isn't its length, or its type isn't tenc";
    case 3: return "version above 1, flags or zero byte not zero, or a pattern in version 0";
    case 4: return "the fields aren't allowed, or the box is longer or shorter than they call for";
    case 5: return "key record not 32 bytes (KID, then key)";
    case 6: return "the key record's KID isn't the track's";
    case 7: return "sample over 16,777,216 bytes";
    case 8: return "auxiliary data of the wrong size, or an entry count of 0";
    case 9: return "more than 64 entries";
    case 10: return "an entry 0 and 0 in a sample that isn't empty";
    case 11: return "the entries' lengths don't add up to the sample's";
    case 12: return "cbc1 entry whose protected length isn't a multiple of 16";
    case 13: return "stream record breaks its rules";
    case 14: return "piece runs past the declared length";
    case 15: return "output shorter than the bytes due";
    case 16: return "end asked for too early";
    case 17: return "output too short for the box being written";
    case 19: return "the block count of a grant is below 1 or above 1,048,576";
    case 20: return "the grant's counter, or in size 16 its last block's, would pass the largest 64-bit number, "
                    "or the issuer is used up";
    case 31: return "the start of an issuer has neither 8 nor 16 bytes";
    case 50: return "the volume isn't valid";
    case 51: return "the volume has no such record";
    case 52: return "today is before the volume's latest day";
    case 53: return "the output is shorter than the volume being written";
    case 54: return "the record's day stored plus its term, as a plain sum, is above today";
    default: return "unknown number";
    }
}

#ifdef __cplusplus
}
#endif

#endif
