/* SPDX-License-Identifier: MIT
 * Copyright (c) 2026 The Gilmekhus developers */

/* The functions of multihash_cid.h, over those of multihash.h. */
#include "multihash_cid.h"

#define TEXT_MAX (MULTIHASH_CID_TEXT_SIZE - 1)

/* All that version 0 has: SHA2-256, with a digest of 32 bytes. */
#define SHA2_256 0x12
#define SHA2_256_LENGTH 32

static multihash_cid failed(multihash_status status)
{
    return (multihash_cid){.status = status};
}

/* Returns whether bytes start as those of version 0 do. */
static int is_version_0(const uint8_t *bytes, size_t length)
{
    return length > 1 && bytes[0] == SHA2_256 && bytes[1] == SHA2_256_LENGTH;
}

static multihash_cid decode(const uint8_t *bytes, size_t length, int is_whole)
{
    multihash_cid cid = {.status = MULTIHASH_OK, .codec = MULTIHASH_CID_DAG_PB};
    if (!is_version_0(bytes, length)) {
        const multihash_varint version = multihash_read_varint(bytes, length);
        if (version.status != MULTIHASH_OK) return failed(version.status);
        if (version.value != 1) return failed(MULTIHASH_CID_UNKNOWN_VERSION);
        const multihash_varint codec = multihash_read_varint(bytes + version.length, length - version.length);
        if (codec.status != MULTIHASH_OK) return failed(codec.status);
        cid.version = version.value;
        cid.codec = codec.value;
        cid.multihash_offset = version.length + codec.length;
    }
    const uint8_t *rest = bytes + cid.multihash_offset;
    const size_t rest_length = length - cid.multihash_offset;
    const multihash_decoded found =
        is_whole ? multihash_from_bytes(rest, rest_length) : multihash_read(rest, rest_length);
    if (found.status != MULTIHASH_OK) return failed(found.status);
    cid.code = found.code;
    cid.digest_offset = cid.multihash_offset + found.digest_offset;
    cid.digest_length = found.digest_length;
    cid.consumed = cid.multihash_offset + found.consumed;
    return cid;
}

multihash_cid multihash_cid_from_bytes(const uint8_t *bytes, size_t bytes_length)
{
    return decode(bytes, bytes_length, 1);
}

multihash_cid multihash_cid_read(const uint8_t *bytes, size_t bytes_length)
{
    return decode(bytes, bytes_length, 0);
}

multihash_encoded multihash_cid_encode(uint64_t version, uint64_t codec, uint64_t code, const uint8_t *digest,
                                       size_t digest_length, uint8_t *out, size_t out_length)
{
    uint8_t head[1 + MULTIHASH_VARINT_LENGTH_MAX] = {1}; /* of version 1 */
    if (version > 1) return (multihash_encoded){.status = MULTIHASH_CID_UNKNOWN_VERSION};
    const multihash_encoded varint = multihash_write_varint(codec, head + 1, MULTIHASH_VARINT_LENGTH_MAX);
    if (varint.status != MULTIHASH_OK) return varint;
    if (version == 0 && (codec != MULTIHASH_CID_DAG_PB || code != SHA2_256 || digest_length != SHA2_256_LENGTH)) {
        return (multihash_encoded){.status = MULTIHASH_CID_NOT_VERSION_0};
    }
    multihash_encoded made = multihash_encoded_length(code, digest_length);
    if (made.status != MULTIHASH_OK) return made;
    const size_t start = version == 0 ? 0 : 1 + varint.length;
    made.length += start;
    if (made.length > out_length) {
        made.status = MULTIHASH_NO_ROOM;
        return made;
    }
    for (size_t i = 0; i < start; i++) out[i] = head[i];
    multihash_encode(code, digest, digest_length, out + start, out_length - start);
    return made;
}

/* ---- Texts. A digit is a character. Its value is its index in the digits of the base. */

/* Returns the digits of a base, by the prefix of a text, or a null pointer. */
static const char *digits_of(char base)
{
    if (base == 'b') return "abcdefghijklmnopqrstuvwxyz234567";
    if (base == 'f') return "0123456789abcdef";
    if (base == 'z') return "123456789ABCDEFGHJKLMNPQRSTUVWXYZabcdefghijkmnopqrstuvwxyz";
    return NULL;
}

/* Returns the value of a digit, or -1 if the base does not have it. */
static int value_of(const char *digits, char digit)
{
    for (int value = 0; digits[value] != '\0'; value++) {
        if (digits[value] == digit) return value;
    }
    return -1;
}

/* Regroups the bits of values, with zeros after the last bit. Returns the number of values in `to`. */
static size_t regroup(const uint8_t *from, size_t from_length, unsigned from_bits, uint8_t *to, unsigned to_bits)
{
    unsigned kept = 0, kept_bits = 0; /* the bits that are in no value yet, and their number */
    size_t length = 0;
    for (size_t i = 0; i < from_length; i++) {
        kept = kept << from_bits | from[i];
        kept_bits += from_bits;
        while (kept_bits >= to_bits) {
            kept_bits -= to_bits;
            to[length++] = (uint8_t)(kept >> kept_bits);
            kept &= (1u << kept_bits) - 1;
        }
    }
    if (kept_bits > 0) to[length++] = (uint8_t)(kept << (to_bits - kept_bits));
    return length;
}

/* Converts a number to another base. Both start with the most significant value, and with as many zeros. Returns the
 * number of values in `to`, which has as many bytes as are needed. */
static size_t convert(const uint8_t *from, size_t from_length, unsigned from_base, uint8_t *to, unsigned to_base)
{
    size_t length = 0;
    for (size_t i = 0; i < from_length; i++) { /* until it is reversed, `to` starts with the least significant value */
        unsigned carry = from[i];
        for (size_t k = 0; k < length; k++) {
            carry += to[k] * from_base;
            to[k] = (uint8_t)(carry % to_base);
            carry /= to_base;
        }
        for (; carry > 0; carry /= to_base) to[length++] = (uint8_t)(carry % to_base);
    }
    for (size_t i = 0; i < from_length && from[i] == 0; i++) to[length++] = 0;
    for (size_t i = 0; i < length / 2; i++) {
        const uint8_t value = to[i];
        to[i] = to[length - 1 - i];
        to[length - 1 - i] = value;
    }
    return length;
}

/* Decodes the digits of a text, which start at an index. `bytes` has TEXT_MAX bytes. Returns the status. */
static multihash_status decode_digits(const char *text, size_t text_length, size_t start, char base, uint8_t *bytes,
                                      size_t *bytes_length)
{
    uint8_t values[TEXT_MAX];
    const size_t length = text_length - start;
    const char *const digits = digits_of(base);
    if (digits == NULL) return MULTIHASH_CID_UNKNOWN_BASE;
    for (size_t i = 0; i < length && start + i < TEXT_MAX; i++) {
        const int value = value_of(digits, text[start + i]);
        if (value < 0) return MULTIHASH_CID_INVALID_DIGIT;
        values[i] = (uint8_t)value;
    }
    if (text_length > TEXT_MAX) return MULTIHASH_CID_TOO_LONG;
    if (base == 'z') {
        *bytes_length = convert(values, length, 58, bytes, 256);
        return MULTIHASH_OK;
    }
    const unsigned bits = base == 'b' ? 5 : 4;
    const size_t trailing = length * bits % 8; /* bits after the last whole byte */
    *bytes_length = length * bits / 8;
    regroup(values, length, bits, bytes, 8);
    const int has_rest = trailing >= bits || (trailing > 0 && bytes[*bytes_length] != 0);
    return has_rest ? MULTIHASH_CID_TRAILING_BITS : MULTIHASH_OK;
}

multihash_cid multihash_cid_parse(const char *text, size_t text_length, uint8_t *out, size_t out_length)
{
    uint8_t bytes[TEXT_MAX];
    size_t bytes_length;
    if (text_length == 0) return failed(MULTIHASH_INSUFFICIENT);
    const int has_prefix = !(text_length > 1 && text[0] == 'Q' && text[1] == 'm');
    const multihash_status status =
        decode_digits(text, text_length, has_prefix ? 1 : 0, has_prefix ? text[0] : 'z', bytes, &bytes_length);
    if (status != MULTIHASH_OK) return failed(status);
    if (is_version_0(bytes, bytes_length) == has_prefix) return failed(MULTIHASH_CID_WRONG_PREFIX);
    const multihash_cid cid = multihash_cid_from_bytes(bytes, bytes_length);
    if (cid.status != MULTIHASH_OK) return cid;
    if (cid.consumed > out_length) return (multihash_cid){.status = MULTIHASH_NO_ROOM, .consumed = cid.consumed};
    for (size_t i = 0; i < cid.consumed; i++) out[i] = bytes[i];
    return cid;
}

multihash_encoded multihash_cid_text(const uint8_t *bytes, size_t bytes_length, char base, char *out, size_t out_length)
{
    uint8_t values[TEXT_MAX];
    const multihash_cid cid = multihash_cid_from_bytes(bytes, bytes_length);
    if (cid.status != MULTIHASH_OK) return (multihash_encoded){.status = cid.status};
    const char *const digits = digits_of(base);
    if (digits == NULL || (cid.version == 0 && base != 'z')) {
        return (multihash_encoded){.status = MULTIHASH_CID_UNKNOWN_BASE};
    }
    const size_t start = cid.version == 0 ? 0 : 1;
    const size_t count = base == 'z' ? convert(bytes, bytes_length, 256, values, 58)
                                     : regroup(bytes, bytes_length, 8, values, base == 'b' ? 5 : 4);
    const size_t length = start + count;
    if (length >= out_length) return (multihash_encoded){.status = MULTIHASH_NO_ROOM, .length = length + 1};
    if (start > 0) out[0] = base;
    for (size_t i = 0; i < count; i++) out[start + i] = digits[values[i]];
    out[length] = '\0';
    return (multihash_encoded){.status = MULTIHASH_OK, .length = length};
}

const char *multihash_cid_status_text(multihash_status status)
{
    static const char *const texts[] = {
        [MULTIHASH_INSUFFICIENT] = "the input is empty, or ends before or inside a varint",
        [MULTIHASH_CID_UNKNOWN_BASE] = "the text must start with b, f, z or Qm",
        [MULTIHASH_CID_INVALID_DIGIT] = "a character is not a digit of the base",
        [MULTIHASH_CID_TOO_LONG] = "the text is too long",
        [MULTIHASH_CID_TRAILING_BITS] = "the last digit has superfluous bits",
        [MULTIHASH_CID_WRONG_PREFIX] = "a CID of version 0 has the text Qm.., and no other has",
        [MULTIHASH_CID_UNKNOWN_VERSION] = "the version is unknown",
        [MULTIHASH_CID_NOT_VERSION_0] = "version 0 has the codec 0x70 and a multihash of SHA2-256 with 32 bytes",
    };
    const char *text = status < sizeof texts / sizeof texts[0] ? texts[status] : NULL;
    return text != NULL ? text : multihash_status_text(status);
}
