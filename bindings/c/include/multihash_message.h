/* SPDX-License-Identifier: MIT
 * Copyright (c) 2026 The Gilmekhus developers */

/* Messages for the errors of multihash.h, with the numbers that the text of a status does not have: "the input ends inside the
 * digest (3 of 32 bytes)". These functions are defined in the header, over snprintf.
 *
 * Call one of them after a function of multihash.h has failed. Each but multihash_print_message writes the message to `text` as
 * snprintf does: at most `text_size` bytes, of which the last is zero. If `text_size` is 0, `text` may be null. It
 * returns the length of the whole message, without the zero byte: if that is `text_size` or more, the message was
 * truncated. A buffer of MULTIHASH_MESSAGE_SIZE bytes is large enough for each message. */
#ifndef MULTIHASH_MESSAGE_H
#define MULTIHASH_MESSAGE_H

#include "multihash.h"

#include <inttypes.h>
#include <stdio.h>

#ifdef __cplusplus
extern "C" {
#endif

/* The size in bytes of a buffer for each message. */
#define MULTIHASH_MESSAGE_SIZE 128

/* The messages. tools/generate tables makes the JavaScript messages from these functions. */

static inline int mh_text_empty(char *text, size_t text_size)
{
    return snprintf(text, text_size, "the input is empty");
}

static inline int mh_text_ends(char *text, size_t text_size, const char *place, const char *part)
{
    return snprintf(text, text_size, "the input ends %s the %s", place, part);
}

static inline int mh_text_truncated(char *text, size_t text_size, const char *part, uint64_t there, uint64_t whole)
{
    return snprintf(text, text_size, "the input ends %s the %s (%" PRIu64 " of %" PRIu64 " %s)",
                    there == 0 ? "before" : "inside", part, there, whole, whole == 1 ? "byte" : "bytes");
}

static inline int mh_text_overflow(char *text, size_t text_size, const char *varint)
{
    return snprintf(text, text_size, "the %s has more than nine bytes", varint);
}

static inline int mh_text_not_minimal(char *text, size_t text_size, const char *varint)
{
    return snprintf(text, text_size, "the %s is not minimal: it ends in a zero byte", varint);
}

static inline int mh_text_too_long(char *text, size_t text_size, const char *part, uint64_t length, uint64_t limit)
{
    return snprintf(text, text_size, "the %s has %" PRIu64 " %s, and the limit is %" PRIu64, part, length,
                    length == 1 ? "byte" : "bytes", limit);
}

static inline int mh_text_too_large(char *text, size_t text_size, const char *name, uint64_t number)
{
    return snprintf(text, text_size, "the %s %" PRIu64 " is 2^63 or more", name, number);
}

static inline int mh_text_trailing(char *text, size_t text_size, uint64_t count)
{
    return snprintf(text, text_size, "%" PRIu64 " %s the multihash", count,
                    count == 1 ? "byte follows" : "bytes follow");
}

/* The message for a malformed varint: `head` is what multihash_read_head returns for `bytes`, which are not empty. */
static inline int mh_message_malformed(char *text, size_t text_size, const uint8_t *bytes, multihash_head head)
{
    int is_code = multihash_read_varint(bytes, head.consumed).status != MULTIHASH_OK;
    const char *varint = is_code ? "varint of the code" : "varint of the digest's length";

    if (head.status == MULTIHASH_NOT_MINIMAL) return mh_text_not_minimal(text, text_size, varint);
    if (head.status == MULTIHASH_OVERFLOW) return mh_text_overflow(text, text_size, varint);
    const char *place = bytes[head.consumed - 1] < 128 ? "before" : "inside";
    return mh_text_ends(text, text_size, place, is_code ? "code" : "digest's length");
}

/* Writes why `bytes` is not exactly one multihash with a digest of at most `limit` bytes, after a call of
 * multihash_from_bytes, multihash_from_prefix, multihash_read, multihash_read_limit or multihash_read_head has failed.
 * `limit` is that of multihash_read_limit, and MULTIHASH_DIGEST_MAX for the others. After multihash_read_many has
 * failed, `bytes` is what follows the items.
 *
 * Only the first MULTIHASH_HEAD_MAX bytes are accessed, or `bytes_length` if that is less. So a caller of
 * multihash_from_prefix may pass the length of the whole input, but then `bytes` has to contain the first
 * MULTIHASH_HEAD_MAX bytes of it, or all of it if it is shorter, even if multihash_from_prefix needed fewer.
 *
 * Call it only after an error: if `bytes` starts with a multihash and more bytes follow, the message reports these,
 * even if multihash_read accepted them.
 *
 * Returns: the length of the message. */
static inline int multihash_message(char *text, size_t text_size, const uint8_t *bytes, size_t bytes_length,
                                    size_t limit)
{
    size_t first = bytes_length < MULTIHASH_HEAD_MAX ? bytes_length : MULTIHASH_HEAD_MAX;
    multihash_head head = multihash_read_head(bytes, first);
    uint64_t most = limit < MULTIHASH_DIGEST_MAX ? limit : MULTIHASH_DIGEST_MAX;
    uint64_t present = bytes_length - head.consumed, length = head.digest_length;

    if (bytes_length == 0) return mh_text_empty(text, text_size);
    if (head.status != MULTIHASH_OK) return mh_message_malformed(text, text_size, bytes, head);
    if (length > most) return mh_text_too_long(text, text_size, "digest", length, most);
    if (present < length) return mh_text_truncated(text, text_size, "digest", present, length);
    if (present == length) return snprintf(text, text_size, "ok");
    return mh_text_trailing(text, text_size, present - length);
}

/* Writes the message of multihash_message and a newline to a stream, such as stderr.
 *
 * Returns: what fprintf returns, which is negative if the output failed. */
static inline int multihash_print_message(FILE *to, const uint8_t *bytes, size_t bytes_length, size_t limit)
{
    char text[MULTIHASH_MESSAGE_SIZE];
    multihash_message(text, sizeof text, bytes, bytes_length, limit);
    return fprintf(to, "%s\n", text);
}

/* Writes why `bytes` does not start with the SCALE encoding of a multihash, after a call of multihash_scale_decode has
 * failed.
 *
 * Returns: the length of the message. */
static inline int multihash_scale_message(char *text, size_t text_size, const uint8_t *bytes, size_t bytes_length)
{
    multihash_decoded result = multihash_scale_decode(bytes, bytes_length);

    if (result.status == MULTIHASH_OK) return snprintf(text, text_size, "ok");
    if (result.status == MULTIHASH_INVALID_CODE) return mh_text_too_large(text, text_size, "code", result.code);
    if (bytes_length == 0) return mh_text_empty(text, text_size);
    if (bytes_length < 8) return mh_text_truncated(text, text_size, "code", bytes_length, 8);
    if (bytes_length == 8) return mh_text_ends(text, text_size, "before", "digest's length");
    return mh_text_truncated(text, text_size, "digest", bytes_length - 9, bytes[8]);
}

/* Writes why a call of multihash_encode, multihash_scale_encode or multihash_encoded_length has failed: `result` is
 * what it returned for that `code`, and `out_length` is the size of its `out`.
 *
 * Returns: the length of the message. */
static inline int multihash_encode_message(char *text, size_t text_size, multihash_encoded result, uint64_t code,
                                           size_t out_length)
{
    const uint64_t present = out_length, needed = result.length;

    switch (result.status) {
    case MULTIHASH_INVALID_SIZE:
        return mh_text_too_long(text, text_size, "digest", result.size, MULTIHASH_DIGEST_MAX);
    case MULTIHASH_INVALID_CODE:
        return mh_text_too_large(text, text_size, "code", code);
    case MULTIHASH_NO_ROOM:
        return snprintf(text, text_size, "the buffer has %" PRIu64 " byte%s, and %" PRIu64 " are needed", present,
                        present == 1 ? "" : "s", needed);
    default:
        return snprintf(text, text_size, "%s", multihash_status_text(result.status));
    }
}

#ifdef __cplusplus
}
#endif

#endif
