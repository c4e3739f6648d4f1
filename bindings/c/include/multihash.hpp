/* SPDX-License-Identifier: MIT
 * Copyright (c) 2026 The Gilmekhus developers */

/* Multihashes and content identifiers (CIDs) as values of C++17, over multihash.h and multihash_cid.h. They have an
 * order, and are keys of std::map and std::unordered_map. Errors are exceptions. */
#ifndef MULTIHASH_HPP
#define MULTIHASH_HPP

#include "multihash_cid.h"
#include "multihash_message.h"
#include "multihash_names.h"

#include <charconv>
#include <functional>
#include <istream>
#include <optional>
#include <stdexcept>
#include <string>
#include <string_view>
#include <utility>

namespace multihash {

/* Why bytes are not a multihash, or why a code and a digest cannot be encoded, with a message of multihash_message.h.
 * The message of a CID is the text of its status. */
class error : public std::invalid_argument {
  public:
    error(multihash_status status, const char *message) : std::invalid_argument(message), status_(status) {}

    multihash_status status() const noexcept { return status_; }

    /* Returns whether the input is truncated: then more bytes can change the result. */
    bool is_incomplete() const noexcept { return multihash_is_incomplete(status_) != 0; }

  private:
    multihash_status status_;
};

/* The operators of a type that has `compare`. */
template <typename Type> class ordered {
    friend bool operator==(const Type &a, const Type &b) noexcept { return a.compare(b) == 0; }
    friend bool operator!=(const Type &a, const Type &b) noexcept { return a.compare(b) != 0; }
    friend bool operator<(const Type &a, const Type &b) noexcept { return a.compare(b) < 0; }
    friend bool operator>(const Type &a, const Type &b) noexcept { return a.compare(b) > 0; }
    friend bool operator<=(const Type &a, const Type &b) noexcept { return a.compare(b) <= 0; }
    friend bool operator>=(const Type &a, const Type &b) noexcept { return a.compare(b) >= 0; }
};

/* A code below 2^63 and a digest of at most 255 bytes. Bytes are the chars of a string or of a string_view. */
class value : private ordered<value> {
  public:
    /* The code 0 and the empty digest. */
    value() = default;

    /* Throws error if the code is 2^63 or more, or the digest too long. */
    value(std::uint64_t code, std::string_view digest) : code_(code)
    {
        const multihash_encoded result = multihash_encoded_length(code, digest.size());
        if (result.status != MULTIHASH_OK) {
            char message[MULTIHASH_MESSAGE_SIZE];
            multihash_encode_message(message, sizeof message, result, code, 0);
            throw error(result.status, message);
        }
        digest_ = digest;
    }

    value(std::uint64_t code, const std::uint8_t *digest, std::size_t length) : value(code, chars_of(digest, length)) {}

    /* Decodes bytes that must be exactly one multihash. Throws error. */
    static value decode(std::string_view bytes)
    {
        const multihash_decoded result = multihash_from_bytes(bytes_of(bytes), bytes.size());
        if (result.status != MULTIHASH_OK) fail(result.status, bytes, MULTIHASH_DIGEST_MAX);
        return value(result.code, bytes.substr(result.digest_offset, result.digest_length));
    }

    static value decode(const std::uint8_t *bytes, std::size_t length) { return decode(chars_of(bytes, length)); }

    /* Decodes the multihash at the start of the bytes, whose digest may have at most `limit` bytes, and removes it from
     * them. Throws error, and then leaves them unchanged. */
    static value read(std::string_view &bytes, std::size_t limit = MULTIHASH_DIGEST_MAX)
    {
        const multihash_decoded result = multihash_read_limit(bytes_of(bytes), bytes.size(), limit);
        if (result.status != MULTIHASH_OK) fail(result.status, bytes, limit);
        value first(result.code, bytes.substr(result.digest_offset, result.digest_length));
        bytes.remove_prefix(result.consumed);
        return first;
    }

    /* Reads the next multihash of a stream, and no byte after it. Returns std::nullopt if the stream has no more bytes,
     * or has failed: test `from.bad()`. Throws error, and then the bytes read of the multihash are lost. */
    static std::optional<value> read(std::istream &from, std::size_t limit = MULTIHASH_DIGEST_MAX)
    {
        char bytes[MULTIHASH_HEAD_MAX + MULTIHASH_DIGEST_MAX];
        std::size_t length = 0;
        multihash_head head = multihash_read_head(nullptr, 0);
        while (head.status == MULTIHASH_INSUFFICIENT && from.get(bytes[length])) {
            length++;
            head = multihash_read_head(bytes_of({bytes, length}), length);
        }
        if (length == 0) return std::nullopt;
        if (head.status == MULTIHASH_OK && head.digest_length <= limit && head.digest_length <= MULTIHASH_DIGEST_MAX) {
            from.read(bytes + length, static_cast<std::streamsize>(head.digest_length));
            length += static_cast<std::size_t>(from.gcount());
        }
        std::string_view rest(bytes, length);
        return read(rest, limit);
    }

    /* Decodes a text of hexadecimal digits. Throws error, and std::invalid_argument if the text has anything else. */
    static value from_hex(std::string_view text)
    {
        if (text.size() % 2 != 0) throw std::invalid_argument("the text has an odd number of digits");
        std::string bytes;
        for (const char *at = text.data(), *end = at + text.size(); at != end; at += 2) {
            unsigned byte = 0;
            if (std::from_chars(at, at + 2, byte, 16).ptr != at + 2) {
                throw std::invalid_argument("the text has a character that is not a hexadecimal digit");
            }
            bytes += static_cast<char>(byte);
        }
        return decode(bytes);
    }

    std::uint64_t code() const noexcept { return code_; }
    const std::string &digest() const noexcept { return digest_; }

    /* Returns the name of the hash function, or an empty text if no hash function has the code. */
    std::string_view name() const noexcept
    {
        const char *text = multihash_name(code_);
        return text == nullptr ? "" : text;
    }

    /* Returns the encoding. */
    std::string bytes() const
    {
        std::uint8_t out[MULTIHASH_LENGTH_MAX];
        const multihash_encoded result = multihash_encode(code_, bytes_of(digest_), digest_.size(), out, sizeof out);
        return std::string(chars_of(out, result.length));
    }

    /* Returns the encoding in hexadecimal. */
    std::string hex() const
    {
        const char *const digits = "0123456789abcdef";
        std::string text;
        for (const char byte : bytes()) {
            text += digits[byte >> 4 & 15];
            text += digits[byte & 15];
        }
        return text;
    }

    /* Returns -1, 0 or 1: compares by code, then by digest length, then by the first digest byte that differs. */
    int compare(const value &other) const noexcept
    {
        return multihash_compare(code_, bytes_of(digest_), digest_.size(), other.code_, bytes_of(other.digest_),
                                 other.digest_.size());
    }

  private:
    friend class cid;

    static const std::uint8_t *bytes_of(std::string_view chars) noexcept
    {
        return reinterpret_cast<const std::uint8_t *>(chars.data());
    }

    static std::string_view chars_of(const std::uint8_t *bytes, std::size_t length) noexcept
    {
        return {reinterpret_cast<const char *>(bytes), length};
    }

    [[noreturn]] static void fail(multihash_status status, std::string_view bytes, std::size_t limit)
    {
        char message[MULTIHASH_MESSAGE_SIZE];
        multihash_message(message, sizeof message, bytes_of(bytes), bytes.size(), limit);
        throw error(status, message);
    }

    std::uint64_t code_ = 0;
    std::string digest_;
};

/* A version, which is 0 or 1, a codec below 2^63, and a multihash. */
class cid : private ordered<cid> {
  public:
    /* Throws error if the version is unknown, the codec 2^63 or more, or if version 0 has another codec than
     * MULTIHASH_CID_DAG_PB, or another multihash than one of SHA2-256 with 32 bytes. */
    cid(std::uint64_t version, std::uint64_t codec, value multihash)
        : version_(version), codec_(codec), multihash_(std::move(multihash))
    {
        std::uint8_t out[MULTIHASH_CID_LENGTH_MAX];
        check(encode(out).status);
    }

    /* Decodes bytes that must be exactly one CID. Throws error. */
    static cid decode(std::string_view bytes)
    {
        return cid(multihash_cid_from_bytes(value::bytes_of(bytes), bytes.size()), bytes);
    }

    /* Decodes the CID at the start of the bytes, and removes it from them. Throws error, and then leaves them
     * unchanged. */
    static cid read(std::string_view &bytes)
    {
        const multihash_cid found = multihash_cid_read(value::bytes_of(bytes), bytes.size());
        cid first(found, bytes);
        bytes.remove_prefix(found.consumed);
        return first;
    }

    /* Decodes a text: b.. (base32), f.. (base16), z.. (base58btc), or Qm.. (version 0). Throws error. */
    static cid parse(std::string_view text)
    {
        std::uint8_t out[MULTIHASH_CID_LENGTH_MAX];
        const multihash_cid found = multihash_cid_parse(text.data(), text.size(), out, sizeof out);
        return cid(found, value::chars_of(out, found.consumed));
    }

    std::uint64_t version() const noexcept { return version_; }
    std::uint64_t codec() const noexcept { return codec_; }
    const value &multihash() const noexcept { return multihash_; }

    /* Returns the encoding. */
    std::string bytes() const
    {
        std::uint8_t out[MULTIHASH_CID_LENGTH_MAX];
        return std::string(value::chars_of(out, encode(out).length));
    }

    /* Returns the text in a base: 'b' is base32, 'f' base16 and 'z' base58btc. Version 0 has the text Qm.. alone, with
     * the base 'z'. Throws error for other bases. */
    std::string text(char base) const
    {
        char out[MULTIHASH_CID_TEXT_SIZE];
        const std::string encoding = bytes();
        check(multihash_cid_text(value::bytes_of(encoding), encoding.size(), base, out, sizeof out).status);
        return out;
    }

    /* Returns the text in base32, or of version 0 in base58btc. */
    std::string text() const { return text(version_ == 0 ? 'z' : 'b'); }

    /* Returns -1, 0 or 1: compares by version, then by codec, then by multihash. */
    int compare(const cid &other) const noexcept
    {
        if (version_ != other.version_) return version_ < other.version_ ? -1 : 1;
        if (codec_ != other.codec_) return codec_ < other.codec_ ? -1 : 1;
        return multihash_.compare(other.multihash_);
    }

  private:
    /* A CID that was found in bytes. */
    cid(const multihash_cid &found, std::string_view bytes) : version_(found.version), codec_(found.codec)
    {
        check(found.status);
        multihash_ = value(found.code, bytes.substr(found.digest_offset, found.digest_length));
    }

    multihash_encoded encode(std::uint8_t (&out)[MULTIHASH_CID_LENGTH_MAX]) const noexcept
    {
        const std::string &digest = multihash_.digest();
        return multihash_cid_encode(version_, codec_, multihash_.code(), value::bytes_of(digest), digest.size(), out,
                                    sizeof out);
    }

    static void check(multihash_status status)
    {
        if (status != MULTIHASH_OK) throw error(status, multihash_cid_status_text(status));
    }

    std::uint64_t version_, codec_;
    value multihash_;
};

} // namespace multihash

template <> struct std::hash<multihash::value> {
    std::size_t operator()(const multihash::value &value) const noexcept
    {
        return std::hash<std::string>()(value.digest()) ^ std::hash<std::uint64_t>()(value.code());
    }
};

template <> struct std::hash<multihash::cid> {
    std::size_t operator()(const multihash::cid &cid) const noexcept
    {
        return std::hash<multihash::value>()(cid.multihash()) ^ std::hash<std::uint64_t>()(cid.codec());
    }
};

#endif
