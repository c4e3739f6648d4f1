/* SPDX-License-Identifier: MIT
 * Copyright (c) 2026 The Gilmekhus developers */

/* Content identifiers (CIDs), as bytes and as strings. A CID is a version, a codec, which is the number of the content's
 * format, and a multihash. The bytes of version 1 are the varints of 1 and of the codec, and the multihash; those of
 * version 0 are the multihash alone, of SHA2-256 with 32 bytes, and the codec is MULTIHASH_CID_DAG_PB. Each CID has
 * exactly one encoding, and one string in each base: others, with capitals or padding, are rejected.
 *
 * The functions are in multihash_cid.c. They call only functions of multihash.h, allocate nothing, and use 2 kB of
 * stack. The preconditions of multihash.h hold for them too. They are tested, not checked for all inputs. */
#ifndef MULTIHASH_CID_H
#define MULTIHASH_CID_H

#include "multihash.h"

#ifdef __cplusplus
extern "C" {
#endif

/* The codecs that most CIDs have. Any other number below 2^63 is a codec too. */
#define MULTIHASH_CID_RAW 0x55
#define MULTIHASH_CID_DAG_PB 0x70
#define MULTIHASH_CID_DAG_CBOR 0x71
#define MULTIHASH_CID_LIBP2P_KEY 0x72
#define MULTIHASH_CID_DAG_JSON 0x129

/* The maximum length of an encoding in bytes, and the size of a buffer for each text with its zero byte. A text has at
 * most MULTIHASH_CID_TEXT_SIZE - 1 characters, in base16. Decoding base58 takes time quadratic in the length of the
 * text, so longer texts are rejected. */
#define MULTIHASH_CID_LENGTH_MAX 276
#define MULTIHASH_CID_TEXT_SIZE 554

/* The statuses of CIDs, besides those of multihash.h. */
enum {
    /* The text does not start with b, f, z or Qm; or a version has no text in the base. */
    MULTIHASH_CID_UNKNOWN_BASE = 16,
    /* A character of the text is not a digit of its base. */
    MULTIHASH_CID_INVALID_DIGIT = 17,
    /* The text is longer than each text of a CID. */
    MULTIHASH_CID_TOO_LONG = 18,
    /* The last digit of the text is superfluous, or its unused bits are not zero. */
    MULTIHASH_CID_TRAILING_BITS = 19,
    /* A CID of version 0 has a prefix, or a text that starts with Qm is not of version 0. */
    MULTIHASH_CID_WRONG_PREFIX = 20,
    /* The version of bytes is not 1, or that of multihash_cid_encode neither 0 nor 1. */
    MULTIHASH_CID_UNKNOWN_VERSION = 21,
    /* Version 0 cannot have this codec or multihash. */
    MULTIHASH_CID_NOT_VERSION_0 = 22
};

/* A CID in a buffer. At an error the fields but `status` are 0, except that `consumed` is the size that `out` needs at
 * MULTIHASH_NO_ROOM. */
typedef struct multihash_cid {
    multihash_status status;
    uint64_t version;        /* 0 or 1 */
    uint64_t codec;          /* below 2^63 */
    uint64_t code;           /* the code of the multihash */
    size_t multihash_offset; /* the index of the multihash */
    size_t digest_offset;    /* the index of its digest */
    size_t digest_length;    /* the digest's length in bytes, at most 255 */
    size_t consumed;         /* the length of the encoding, at most MULTIHASH_CID_LENGTH_MAX */
} multihash_cid;

/* Decodes the CID whose encoding is the whole of `bytes`. Nothing is copied.
 *
 * Returns: the CID, whose offsets are in `bytes`.
 * Errors:  MULTIHASH_CID_UNKNOWN_VERSION; those of multihash_read_varint for version and codec; those of
 *          multihash_from_bytes for the multihash. */
multihash_cid multihash_cid_from_bytes(const uint8_t *bytes, size_t bytes_length);

/* Decodes the CID at the start of `bytes`, such as that of a section of a CAR file. More bytes may follow.
 *
 * Returns: the CID, whose offsets are in `bytes`. What follows it is at `bytes + consumed`.
 * Errors:  as multihash_cid_from_bytes, but of the multihash those of multihash_read. */
multihash_cid multihash_cid_read(const uint8_t *bytes, size_t bytes_length);

/* Decodes a text of `text_length` characters: b.. (base32), f.. (base16), z.. (base58btc), or Qm.. (version 0). It
 * writes the encoding of the CID to the start of `out`, which has `out_length` bytes: MULTIHASH_CID_LENGTH_MAX suffice.
 *
 * Returns: the CID, whose offsets are in `out`. The rest of `out` is unchanged.
 * Errors:  MULTIHASH_INSUFFICIENT if the text is empty; MULTIHASH_CID_UNKNOWN_BASE, MULTIHASH_CID_INVALID_DIGIT,
 *          MULTIHASH_CID_TOO_LONG, MULTIHASH_CID_TRAILING_BITS, MULTIHASH_CID_WRONG_PREFIX; those of
 *          multihash_cid_from_bytes; MULTIHASH_NO_ROOM with the size that `out` needs in `consumed`. After an error
 *          `out` is unchanged. */
multihash_cid multihash_cid_parse(const char *text, size_t text_length, uint8_t *out, size_t out_length);

/* Writes the encoding of a CID to the start of `out`, which has `out_length` bytes. Version 0 has the codec
 * MULTIHASH_CID_DAG_PB, the code of SHA2-256 and a digest of 32 bytes.
 *
 * Returns: `length`, the number of bytes written, at most MULTIHASH_CID_LENGTH_MAX. The rest of `out` is unchanged.
 * Errors:  MULTIHASH_CID_UNKNOWN_VERSION, MULTIHASH_CID_NOT_VERSION_0; MULTIHASH_OVERFLOW if the codec is 2^63 or more;
 *          those of multihash_encode, of which MULTIHASH_NO_ROOM has the size that `out` needs in `length`. After an
 *          error `out` is unchanged. */
multihash_encoded multihash_cid_encode(uint64_t version, uint64_t codec, uint64_t code, const uint8_t *digest,
                                       size_t digest_length, uint8_t *out, size_t out_length);

/* Writes the text of a CID, which is the whole of `bytes`, and a zero byte to the start of `out`, which has
 * `out_length` bytes: MULTIHASH_CID_TEXT_SIZE suffice. `base` is the prefix of the text: 'b' is base32, 'f' base16 and
 * 'z' base58btc. Version 0 has the text Qm.. alone, and its base is 'z'.
 *
 * Returns: `length`, the number of characters, without the zero byte. The rest of `out` is unchanged.
 * Errors:  MULTIHASH_CID_UNKNOWN_BASE for other bases; those of multihash_cid_from_bytes; MULTIHASH_NO_ROOM with the
 *          size that `out` needs in `length`. After an error `out` is unchanged. */
multihash_encoded multihash_cid_text(const uint8_t *bytes, size_t bytes_length, char base, char *out,
                                     size_t out_length);

/* Returns the text of a status of this header or of multihash.h: a static string, which says what happened. */
const char *multihash_cid_status_text(multihash_status status);

#ifdef __cplusplus
}
#endif

#endif
