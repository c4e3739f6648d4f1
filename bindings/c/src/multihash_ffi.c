/* SPDX-License-Identifier: MIT
 * Copyright (c) 2026 The Gilmekhus developers */

/* The functions of multihash_ffi.h, for the shared library: those of the other headers that return a struct or are
 * defined inline. A program in C or C++ needs none of them. */
#include "multihash_cid.h"
#include "multihash_message.h"
#include "multihash_names.h"

#include "multihash_ffi.h"

/* Defines the function multihash_ffi_NAME of a type, with these parameters, which returns that value. The functions
 * differ in nothing else. */
#define MH_FFI(type, name, parameters, value) \
    type multihash_ffi_##name parameters      \
    {                                         \
        return value;                         \
    }

/* Each function put_X stores the fields of a struct of the type multihash_X, and returns its status. */

static uint32_t put_decoded(multihash_decoded from, uint64_t *result)
{
    result[0] = from.size;
    result[1] = from.code;
    result[2] = from.digest_offset;
    result[3] = from.digest_length;
    result[4] = from.consumed;
    return from.status;
}

static uint32_t put_batch(multihash_batch from, uint64_t *result)
{
    result[0] = from.size;
    result[1] = from.count;
    result[2] = from.consumed;
    return from.status;
}

static uint32_t put_head(multihash_head from, uint64_t *result)
{
    result[0] = from.code;
    result[1] = from.digest_length;
    result[2] = from.consumed;
    return from.status;
}

static uint32_t put_varint(multihash_varint from, uint64_t *result)
{
    result[0] = from.value;
    result[1] = from.length;
    return from.status;
}

static uint32_t put_cid(multihash_cid from, uint64_t *result)
{
    result[0] = from.version;
    result[1] = from.codec;
    result[2] = from.code;
    result[3] = from.multihash_offset;
    result[4] = from.digest_offset;
    result[5] = from.digest_length;
    result[6] = from.consumed;
    return from.status;
}

static uint32_t put_encoded(multihash_encoded from, uint64_t *result)
{
    result[0] = from.size;
    result[1] = from.length;
    return from.status;
}

MH_FFI(uint32_t, from_bytes, (const uint8_t *bytes, size_t bytes_length, uint64_t *result),
       put_decoded(multihash_from_bytes(bytes, bytes_length), result))
MH_FFI(uint32_t, from_prefix, (const uint8_t *prefix, size_t prefix_length, size_t whole_length, uint64_t *result),
       put_decoded(multihash_from_prefix(prefix, prefix_length, whole_length), result))
MH_FFI(uint32_t, read, (const uint8_t *bytes, size_t bytes_length, uint64_t *result),
       put_decoded(multihash_read(bytes, bytes_length), result))
MH_FFI(uint32_t, read_limit, (const uint8_t *bytes, size_t bytes_length, size_t limit, uint64_t *result),
       put_decoded(multihash_read_limit(bytes, bytes_length, limit), result))
MH_FFI(uint32_t, scale_decode, (const uint8_t *bytes, size_t bytes_length, uint64_t *result),
       put_decoded(multihash_scale_decode(bytes, bytes_length), result))
MH_FFI(uint32_t, read_many, (const uint8_t *bytes, size_t bytes_length, void *out, size_t out_length, uint64_t *result),
       put_batch(multihash_read_many(bytes, bytes_length, out, out_length), result))
MH_FFI(uint32_t, read_head, (const uint8_t *bytes, size_t bytes_length, uint64_t *result),
       put_head(multihash_read_head(bytes, bytes_length), result))
MH_FFI(uint32_t, read_varint, (const uint8_t *bytes, size_t bytes_length, uint64_t *result),
       put_varint(multihash_read_varint(bytes, bytes_length), result))
MH_FFI(uint32_t, encoded_length, (uint64_t code, size_t digest_length, uint64_t *result),
       put_encoded(multihash_encoded_length(code, digest_length), result))
MH_FFI(uint32_t, encode,
       (uint64_t code, const uint8_t *digest, size_t digest_length, uint8_t *out, size_t out_length, uint64_t *result),
       put_encoded(multihash_encode(code, digest, digest_length, out, out_length), result))
MH_FFI(uint32_t, scale_encode,
       (uint64_t code, const uint8_t *digest, size_t digest_length, uint8_t *out, size_t out_length, uint64_t *result),
       put_encoded(multihash_scale_encode(code, digest, digest_length, out, out_length), result))
MH_FFI(uint32_t, write_varint, (uint64_t value, uint8_t *out, size_t out_length, uint64_t *result),
       put_encoded(multihash_write_varint(value, out, out_length), result))

MH_FFI(uint32_t, cid_from_bytes, (const uint8_t *bytes, size_t bytes_length, uint64_t *result),
       put_cid(multihash_cid_from_bytes(bytes, bytes_length), result))
MH_FFI(uint32_t, cid_read, (const uint8_t *bytes, size_t bytes_length, uint64_t *result),
       put_cid(multihash_cid_read(bytes, bytes_length), result))
MH_FFI(uint32_t, cid_parse, (const char *text, size_t text_length, uint8_t *out, size_t out_length, uint64_t *result),
       put_cid(multihash_cid_parse(text, text_length, out, out_length), result))
MH_FFI(uint32_t, cid_encode,
       (uint64_t version, uint64_t codec, uint64_t code, const uint8_t *digest, size_t digest_length, uint8_t *out,
        size_t out_length, uint64_t *result),
       put_encoded(multihash_cid_encode(version, codec, code, digest, digest_length, out, out_length), result))
MH_FFI(uint32_t, cid_text,
       (const uint8_t *bytes, size_t bytes_length, char base, char *out, size_t out_length, uint64_t *result),
       put_encoded(multihash_cid_text(bytes, bytes_length, base, out, out_length), result))

MH_FFI(const char *, name, (uint64_t code), multihash_name(code))
MH_FFI(uint64_t, code, (const char *name), multihash_code(name))
MH_FFI(int, message, (char *text, size_t text_size, const uint8_t *bytes, size_t bytes_length, size_t limit),
       multihash_message(text, text_size, bytes, bytes_length, limit))
MH_FFI(int, scale_message, (char *text, size_t text_size, const uint8_t *bytes, size_t bytes_length),
       multihash_scale_message(text, text_size, bytes, bytes_length))

int multihash_ffi_encode_message(char *text, size_t text_size, uint32_t status, const uint64_t *result, uint64_t code,
                                 size_t out_length)
{
    const multihash_encoded failed = {.status = status, .size = result[0], .length = (size_t)result[1]};
    return multihash_encode_message(text, text_size, failed, code, out_length);
}
