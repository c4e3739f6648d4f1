/* SPDX-License-Identifier: MIT
 * Copyright (c) 2026 The Gilmekhus developers */

/* The library for C. It is this file and multihash.h, which describes each function. Nothing here allocates or keeps
 * state, and numbers are read and written byte by byte, for machines of either byte order. proof/check_c.py of the
 * repository shows for all inputs that each function does what proof/definitions.py says. */
#include "multihash.h"

#if __STDC_HOSTED__
#include <string.h>
#else /* without a C library, where compilers expect these two as well */
void *memcpy(void *, const void *, size_t);
int memcmp(const void *, const void *, size_t);
#endif

/* The largest code, and the largest number that has a varint: 2^63 - 1. */
#define NUMBER_MAX INT64_MAX

/* Most multihashes have a code of one byte and a digest of 32 bytes. Two functions handle these first, which saves a
 * fifth of the time or more. */
#define USUAL_DIGEST 32
#define USUAL_LENGTH (2 + USUAL_DIGEST)

/* ---- Varints: seven bits in each byte, least significant first. All bytes but the last have the bit 0x80. */

/* Reads the varint at the start of the bytes. Its number is valid at MULTIHASH_OK. `consumed` is always set: to the
 * bytes up to and including the one that determines the status, or to all if they end before or inside the varint. */
static inline multihash_status get_varint(const uint8_t *bytes, size_t length, uint64_t *number, size_t *consumed)
{
    *consumed = 0;
    if (length == 0) return MULTIHASH_INSUFFICIENT;
    *consumed = 1;
    *number = bytes[0];
    if (bytes[0] < 0x80) return MULTIHASH_OK;

    const size_t end = length < MULTIHASH_VARINT_LENGTH_MAX ? length : MULTIHASH_VARINT_LENGTH_MAX;
    uint64_t value = bytes[0] & 0x7f;
    for (size_t i = 1; i < end; i++) {
        value |= (uint64_t)(bytes[i] & 0x7f) << 7 * i;
        if (bytes[i] < 0x80) {
            *number = value;
            *consumed = i + 1;
            return bytes[i] == 0 ? MULTIHASH_NOT_MINIMAL : MULTIHASH_OK;
        }
    }
    *consumed = end;
    return end == MULTIHASH_VARINT_LENGTH_MAX ? MULTIHASH_OVERFLOW : MULTIHASH_INSUFFICIENT;
}

/* Returns the length of a number's varint. */
static inline size_t varint_length(uint64_t number)
{
    size_t length = 1;
    while (number >>= 7) length++;
    return length;
}

/* Writes the varint of a number, and returns the address after it. */
static inline uint8_t *put_varint(uint8_t *out, uint64_t number)
{
    for (; number >= 0x80; number >>= 7) *out++ = (uint8_t)(number | 0x80);
    *out++ = (uint8_t)number;
    return out;
}

multihash_varint multihash_read_varint(const uint8_t *bytes, size_t bytes_length)
{
    uint64_t value;
    size_t length;
    const multihash_status status = get_varint(bytes, bytes_length, &value, &length);
    if (status != MULTIHASH_OK) return (multihash_varint){.status = status};
    return (multihash_varint){.status = MULTIHASH_OK, .value = value, .length = length};
}

multihash_encoded multihash_write_varint(uint64_t value, uint8_t *out, size_t out_length)
{
    if (value > NUMBER_MAX) return (multihash_encoded){.status = MULTIHASH_OVERFLOW};
    const size_t length = varint_length(value);
    if (length > out_length) return (multihash_encoded){.status = MULTIHASH_NO_ROOM, .length = length};
    put_varint(out, value);
    return (multihash_encoded){.status = MULTIHASH_OK, .length = length};
}

/* ---- Decoding: the head of a multihash is two varints, the code and the digest's length. */

static multihash_head get_long_head(const uint8_t *bytes, size_t length)
{
    multihash_head head = {0};
    uint64_t code, digest_length;
    size_t consumed;
    head.status = get_varint(bytes, length, &code, &head.consumed);
    if (head.status != MULTIHASH_OK) return head;
    head.status = get_varint(bytes + head.consumed, length - head.consumed, &digest_length, &consumed);
    head.consumed += consumed;
    if (head.status != MULTIHASH_OK) return head;
    head.code = code;
    head.digest_length = digest_length;
    return head;
}

/* Reads the head at the start of the bytes. Most have two varints of one byte. */
static inline multihash_head get_head(const uint8_t *bytes, size_t length)
{
    if (length < 2 || bytes[0] >= 0x80 || bytes[1] >= 0x80) return get_long_head(bytes, length);
    return (multihash_head){.status = MULTIHASH_OK, .code = bytes[0], .digest_length = bytes[1], .consumed = 2};
}

multihash_head multihash_read_head(const uint8_t *bytes, size_t bytes_length)
{
    return get_head(bytes, bytes_length);
}

static inline multihash_decoded failed(multihash_status status, uint64_t size, size_t consumed)
{
    return (multihash_decoded){.status = status, .size = size, .consumed = consumed};
}

static inline multihash_decoded found(uint64_t code, size_t digest_offset, size_t digest_length)
{
    return (multihash_decoded){.status = MULTIHASH_OK,
                               .code = code,
                               .digest_offset = digest_offset,
                               .digest_length = digest_length,
                               .consumed = digest_offset + digest_length};
}

/* Decodes the multihash that is an input of `whole_length` bytes, of which the first `length` are there. */
static inline multihash_decoded decode_whole(const uint8_t *bytes, size_t length, size_t whole_length)
{
    const multihash_head head = get_head(bytes, length);
    if (head.status != MULTIHASH_OK) return failed(head.status, 0, whole_length);
    if (head.digest_length > MULTIHASH_DIGEST_MAX) {
        return failed(MULTIHASH_INVALID_SIZE, head.digest_length, whole_length);
    }
    const size_t rest = whole_length - head.consumed;
    if (rest < head.digest_length) return failed(MULTIHASH_UNEXPECTED_EOF, 0, whole_length);
    if (rest > head.digest_length) return failed(MULTIHASH_INVALID_SIZE, rest - head.digest_length, whole_length);
    return found(head.code, head.consumed, rest);
}

multihash_decoded multihash_from_bytes(const uint8_t *bytes, size_t bytes_length)
{
    return decode_whole(bytes, bytes_length, bytes_length);
}

multihash_decoded multihash_from_prefix(const uint8_t *prefix, size_t prefix_length, size_t whole_length)
{
    return decode_whole(prefix, prefix_length < whole_length ? prefix_length : whole_length, whole_length);
}

/* Decodes the multihash at the start of the bytes, with a digest of at most `limit` bytes. */
static inline multihash_decoded decode_start(const uint8_t *bytes, size_t length, size_t limit)
{
    const multihash_head head = get_head(bytes, length);
    if (head.status != MULTIHASH_OK) return failed(head.status, 0, head.consumed);
    if (head.digest_length > limit || head.digest_length > MULTIHASH_DIGEST_MAX) {
        return failed(MULTIHASH_INVALID_SIZE, head.digest_length, head.consumed);
    }
    if (head.digest_length > length - head.consumed) return failed(MULTIHASH_UNEXPECTED_EOF, 0, head.consumed);
    return found(head.code, head.consumed, (size_t)head.digest_length);
}

multihash_decoded multihash_read(const uint8_t *bytes, size_t bytes_length)
{
    return decode_start(bytes, bytes_length, MULTIHASH_DIGEST_MAX);
}

multihash_decoded multihash_read_limit(const uint8_t *bytes, size_t bytes_length, size_t limit)
{
    return decode_start(bytes, bytes_length, limit);
}

multihash_batch multihash_read_many(const uint8_t *bytes, size_t bytes_length, multihash_item *out, size_t out_length)
{
    size_t count = 0, consumed = 0;
    multihash_decoded result = {0};
    while (count < out_length && consumed < bytes_length) {
        const uint8_t *next = bytes + consumed;
        const size_t rest = bytes_length - consumed;
        if (rest >= USUAL_LENGTH && next[0] < 0x80 && next[1] == USUAL_DIGEST) {
            /* The step is constant, so a processor starts the next item before it has loaded the length of this digest. */
            out[count++] = (multihash_item){next[0], consumed + 2, USUAL_DIGEST};
            consumed += USUAL_LENGTH;
        } else {
            result = decode_start(next, rest, MULTIHASH_DIGEST_MAX);
            if (result.status != MULTIHASH_OK) break;
            out[count++] = (multihash_item){result.code, consumed + result.digest_offset, result.digest_length};
            consumed += result.consumed;
        }
    }
    return (multihash_batch){.status = result.status, .size = result.size, .count = count, .consumed = consumed};
}

/* ---- Encoding */

multihash_encoded multihash_encoded_length(uint64_t code, size_t digest_length)
{
    if (digest_length > MULTIHASH_DIGEST_MAX) {
        return (multihash_encoded){.status = MULTIHASH_INVALID_SIZE, .size = digest_length};
    }
    if (code > NUMBER_MAX) return (multihash_encoded){.status = MULTIHASH_INVALID_CODE};
    const size_t length = varint_length(code) + varint_length(digest_length) + digest_length;
    return (multihash_encoded){.status = MULTIHASH_OK, .length = length};
}

multihash_encoded multihash_encode(uint64_t code, const uint8_t *digest, size_t digest_length, uint8_t *out,
                                   size_t out_length)
{
    if (code < 0x80 && digest_length == USUAL_DIGEST && out_length >= USUAL_LENGTH) {
        out[0] = (uint8_t)code;
        out[1] = USUAL_DIGEST;
        memcpy(out + 2, digest, USUAL_DIGEST); /* no call, since the length is constant */
        return (multihash_encoded){.status = MULTIHASH_OK, .length = USUAL_LENGTH};
    }
    multihash_encoded result = multihash_encoded_length(code, digest_length);
    if (result.status != MULTIHASH_OK) return result;
    if (result.length > out_length) {
        result.status = MULTIHASH_NO_ROOM;
        return result;
    }
    out = put_varint(out, code);
    out = put_varint(out, digest_length);
    if (digest_length > 0) memcpy(out, digest, digest_length); /* which takes no null pointer */
    return result;
}

/* ---- The SCALE encoding: the code in eight bytes, the digest's length in one, the digest. */

/* Eight bytes as a number, least significant first: compilers make one load or store of it where they can. */
static inline uint64_t get_u64(const uint8_t *b)
{
    return (uint64_t)b[0] | (uint64_t)b[1] << 8 | (uint64_t)b[2] << 16 | (uint64_t)b[3] << 24 | (uint64_t)b[4] << 32 |
           (uint64_t)b[5] << 40 | (uint64_t)b[6] << 48 | (uint64_t)b[7] << 56;
}

static inline void put_u64(uint8_t *out, uint64_t number)
{
    out[0] = (uint8_t)number;
    out[1] = (uint8_t)(number >> 8);
    out[2] = (uint8_t)(number >> 16);
    out[3] = (uint8_t)(number >> 24);
    out[4] = (uint8_t)(number >> 32);
    out[5] = (uint8_t)(number >> 40);
    out[6] = (uint8_t)(number >> 48);
    out[7] = (uint8_t)(number >> 56);
}

multihash_decoded multihash_scale_decode(const uint8_t *bytes, size_t bytes_length)
{
    if (bytes_length < 8) return failed(MULTIHASH_UNEXPECTED_EOF, 0, 0);
    const uint64_t code = get_u64(bytes);
    if (code > NUMBER_MAX) return (multihash_decoded){.status = MULTIHASH_INVALID_CODE, .code = code, .consumed = 8};
    if (bytes_length == 8) return failed(MULTIHASH_UNEXPECTED_EOF, 0, 8);
    const size_t digest_length = bytes[8];
    if (digest_length > bytes_length - 9) return failed(MULTIHASH_UNEXPECTED_EOF, 0, 9);
    return found(code, 9, digest_length);
}

multihash_encoded multihash_scale_encode(uint64_t code, const uint8_t *digest, size_t digest_length, uint8_t *out,
                                         size_t out_length)
{
    multihash_encoded result = multihash_encoded_length(code, digest_length);
    if (result.status != MULTIHASH_OK) return result;
    result.length = 9 + digest_length;
    if (result.length > out_length) {
        result.status = MULTIHASH_NO_ROOM;
        return result;
    }
    put_u64(out, code);
    out[8] = (uint8_t)digest_length;
    if (digest_length > 0) memcpy(out + 9, digest, digest_length);
    return result;
}

/* ---- Comparing, and about the library */

int32_t multihash_compare(uint64_t left_code, const uint8_t *left_digest, size_t left_digest_length,
                          uint64_t right_code, const uint8_t *right_digest, size_t right_digest_length)
{
    if (left_code != right_code) return left_code < right_code ? -1 : 1;
    if (left_digest_length != right_digest_length) return left_digest_length < right_digest_length ? -1 : 1;
    if (left_digest_length == 0) return 0; /* memcmp takes no null pointer */
    const int order = memcmp(left_digest, right_digest, left_digest_length);
    if (order == 0) return 0;
    return order < 0 ? -1 : 1;
}

const char *multihash_status_text(multihash_status status)
{
    switch (status) {
    case MULTIHASH_OK:
        return "ok";
    case MULTIHASH_INSUFFICIENT:
        return "the input ends before or inside a varint";
    case MULTIHASH_OVERFLOW:
        return "a varint has more than nine bytes";
    case MULTIHASH_NOT_MINIMAL:
        return "a varint is not minimal: it ends in a zero byte";
    case MULTIHASH_INVALID_SIZE:
        return "the digest or the input is too long";
    case MULTIHASH_INVALID_CODE:
        return "the code is 2^63 or more";
    case MULTIHASH_UNEXPECTED_EOF:
        return "the input ends before the end of the digest";
    case MULTIHASH_NO_ROOM:
        return "the buffer is too small";
    default:
        return "unknown status";
    }
}

int multihash_is_incomplete(multihash_status status)
{
    return status == MULTIHASH_INSUFFICIENT || status == MULTIHASH_UNEXPECTED_EOF;
}

uint32_t multihash_version(void)
{
    return MULTIHASH_VERSION_NUMBER;
}
