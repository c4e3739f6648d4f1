/* What the files of the tests share. */
#ifndef CHECK_H
#define CHECK_H

#include "multihash.h"

#include <stdio.h>
#include <stdlib.h>
#include <string.h>

/* Ends the program if the condition is false. */
#define CHECK(fact)                                                            \
    do {                                                                       \
        if (!(fact)) {                                                         \
            fprintf(stderr, "%s:%d: not so: %s\n", __FILE__, __LINE__, #fact); \
            exit(1);                                                           \
        }                                                                      \
    } while (0)

/* Returns zeros in a block of exactly that length, so that sanitizers see an access after its end; null for none. */
static inline uint8_t *buffer(size_t length)
{
    uint8_t *bytes = length == 0 ? NULL : (uint8_t *)calloc(1, length);
    CHECK(length == 0 || bytes != NULL);
    return bytes;
}

static inline uint8_t *copy_of(const uint8_t *bytes, size_t length)
{
    uint8_t *copy = buffer(length);
    if (length > 0) memcpy(copy, bytes, length);
    return copy;
}

/* Checks that a status is that of a word of the lists in crates/vectors/data. Its number is part of the ABI. */
static inline void check_word(multihash_status status, const char *word)
{
    static const char *const words[] = {"pair",         "insufficient", "overflow",      "not_minimal",
                                        "invalid_size", "invalid_code", "unexpected_eof"};
    static const char *const cid_words[] = {"unknown_base",  "invalid_digit", "too_long",
                                            "trailing_bits", "wrong_prefix",  "unknown_version"};
    CHECK(status < 7 || (status >= 16 && status < 22));
    CHECK(strcmp(status < 7 ? words[status] : cid_words[status - 16], word) == 0);
    CHECK(multihash_is_incomplete(status) == (status == 1 || status == 6));
}

/* The bytes of a text in hexadecimal; a dash is no bytes. */
static inline size_t parse_hex(const char *text, uint8_t *to, size_t places)
{
    size_t length = strcmp(text, "-") == 0 ? 0 : strlen(text) / 2;
    CHECK(length <= places);
    for (size_t i = 0; i < length; i++) {
        unsigned byte = 0;
        CHECK(sscanf(text + 2 * i, "%2x", &byte) == 1);
        to[i] = (uint8_t)byte;
    }
    return length;
}

/* cid.c */
void check_cids(void);
void check_cid_line(char *line);

#endif
