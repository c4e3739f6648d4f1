/* SPDX-License-Identifier: MIT
 * Copyright (c) 2026 The Gilmekhus developers */

/* The library for languages that load it and compile no C, such as Ruby, PHP, LuaJIT and Python's ctypes. The shared
 * library has these functions. This file has no directives of the preprocessor, so PHP and LuaJIT read it as it is.
 *
 * multihash_ffi_X does what multihash_X does, with the same preconditions. It returns the status, and writes the other
 * fields of the result to `result`, in their order, each in eight bytes. The functions that return no struct are called
 * by their own names. */
int32_t multihash_compare(uint64_t left_code, const uint8_t *left_digest, size_t left_digest_length,
                          uint64_t right_code, const uint8_t *right_digest, size_t right_digest_length);
uint32_t multihash_version(void);
const char *multihash_status_text(uint32_t status);
const char *multihash_cid_status_text(uint32_t status);
int multihash_is_incomplete(uint32_t status);

/* size, code, digest_offset, digest_length, consumed */
uint32_t multihash_ffi_from_bytes(const uint8_t *bytes, size_t bytes_length, uint64_t *result);
uint32_t multihash_ffi_from_prefix(const uint8_t *prefix, size_t prefix_length, size_t whole_length, uint64_t *result);
uint32_t multihash_ffi_read(const uint8_t *bytes, size_t bytes_length, uint64_t *result);
uint32_t multihash_ffi_read_limit(const uint8_t *bytes, size_t bytes_length, size_t limit, uint64_t *result);
uint32_t multihash_ffi_scale_decode(const uint8_t *bytes, size_t bytes_length, uint64_t *result);

/* size, count, consumed. An item of `out` is a code in eight bytes, and two `size_t`: the digest's offset and length. */
uint32_t multihash_ffi_read_many(const uint8_t *bytes, size_t bytes_length, void *out, size_t out_length,
                                 uint64_t *result);

/* code, digest_length, consumed */
uint32_t multihash_ffi_read_head(const uint8_t *bytes, size_t bytes_length, uint64_t *result);

/* value, length */
uint32_t multihash_ffi_read_varint(const uint8_t *bytes, size_t bytes_length, uint64_t *result);

/* size, length */
uint32_t multihash_ffi_encoded_length(uint64_t code, size_t digest_length, uint64_t *result);
uint32_t multihash_ffi_encode(uint64_t code, const uint8_t *digest, size_t digest_length, uint8_t *out,
                              size_t out_length, uint64_t *result);
uint32_t multihash_ffi_scale_encode(uint64_t code, const uint8_t *digest, size_t digest_length, uint8_t *out,
                                    size_t out_length, uint64_t *result);
uint32_t multihash_ffi_write_varint(uint64_t value, uint8_t *out, size_t out_length, uint64_t *result);

/* The functions of multihash_cid.h. A CID has at most 276 bytes, and a text, with its zero byte, at most 554.
 *
 * version, codec, code, multihash_offset, digest_offset, digest_length, consumed */
uint32_t multihash_ffi_cid_from_bytes(const uint8_t *bytes, size_t bytes_length, uint64_t *result);
uint32_t multihash_ffi_cid_read(const uint8_t *bytes, size_t bytes_length, uint64_t *result);
uint32_t multihash_ffi_cid_parse(const char *text, size_t text_length, uint8_t *out, size_t out_length,
                                 uint64_t *result);

/* size, length */
uint32_t multihash_ffi_cid_encode(uint64_t version, uint64_t codec, uint64_t code, const uint8_t *digest,
                                  size_t digest_length, uint8_t *out, size_t out_length, uint64_t *result);
uint32_t multihash_ffi_cid_text(const uint8_t *bytes, size_t bytes_length, char base, char *out, size_t out_length,
                                uint64_t *result);

/* Static strings; the name of an unknown code is a null pointer, and the code of an unknown name is 2^64 - 1. */
const char *multihash_ffi_name(uint64_t code);
uint64_t multihash_ffi_code(const char *name);

/* The messages, of at most 128 bytes with the zero byte. `result` are the numbers that an encoder wrote. */
int multihash_ffi_message(char *text, size_t text_size, const uint8_t *bytes, size_t bytes_length, size_t limit);
int multihash_ffi_scale_message(char *text, size_t text_size, const uint8_t *bytes, size_t bytes_length);
int multihash_ffi_encode_message(char *text, size_t text_size, uint32_t status, const uint64_t *result, uint64_t code,
                                 size_t out_length);
