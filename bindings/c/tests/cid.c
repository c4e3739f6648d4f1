/* Content identifiers: the texts of cids.tsv of crates/vectors, each from and to bytes, into buffers of each size; and
 * what has no encoding. */
#include "check.h"
#include "multihash_cid.h"

#include <inttypes.h>

static const uint8_t digest[MULTIHASH_DIGEST_MAX + 1] = {1, 2, 3};

/* Replaces each \xHH of a column by the byte; a dash is the empty text. Returns the length. */
static size_t unescape(char *column)
{
    size_t length = 0;
    if (strcmp(column, "-") == 0) return 0;
    for (const char *at = column; *at != '\0'; at++) {
        unsigned byte = (unsigned char)*at;
        if (*at == '\\') {
            CHECK(sscanf(at, "\\x%2x", &byte) == 1);
            at += 3;
        }
        column[length++] = (char)byte;
    }
    return length;
}

/* Whether a result is that of the column. The offsets are in `bytes`. */
static void check_result(multihash_cid cid, const uint8_t *bytes, const char *column)
{
    char digits[2 * MULTIHASH_DIGEST_MAX + 1];
    uint8_t wanted[MULTIHASH_DIGEST_MAX];
    uint64_t version, codec, code;
    if (cid.status != MULTIHASH_OK) {
        check_word(cid.status, column);
        CHECK(strcmp(multihash_cid_status_text(cid.status), "unknown status") != 0);
        CHECK(cid.version == 0 && cid.codec == 0 && cid.code == 0 && cid.digest_length == 0 && cid.consumed == 0);
        return;
    }
    CHECK(sscanf(column, "cid %" SCNu64 " %" SCNu64 " %" SCNu64 " %510s", &version, &codec, &code, digits) == 4);
    CHECK(cid.version == version && cid.codec == codec && cid.code == code);
    CHECK(parse_hex(digits, wanted, sizeof wanted) == cid.digest_length);
    CHECK(memcmp(wanted, bytes + cid.digest_offset, cid.digest_length) == 0);
    CHECK(cid.multihash_offset < cid.digest_offset && cid.digest_offset + cid.digest_length == cid.consumed);
}

/* Whether a call wrote the bytes to `out`, or, after an error, left the zeros there. */
static int is_written(multihash_status status, const uint8_t *out, size_t room, const void *bytes, size_t length)
{
    if (status == MULTIHASH_OK) return length <= room && memcmp(out, bytes, length) == 0;
    for (size_t i = 0; i < room; i++) {
        if (out[i] != 0) return 0;
    }
    return status == MULTIHASH_NO_ROOM && room < length;
}

/* Each function makes the same of a CID, and fails for each smaller buffer, which is unchanged. */
static void check_rooms(multihash_cid cid, const uint8_t *bytes, const char *text, size_t text_length)
{
    const uint8_t *of_digest = bytes + cid.digest_offset;
    for (size_t room = 0; room <= text_length + 1; room++) {
        uint8_t *encoding = buffer(room), *parsed = buffer(room), *shown = buffer(room);
        multihash_encoded made =
            multihash_cid_encode(cid.version, cid.codec, cid.code, of_digest, cid.digest_length, encoding, room);
        CHECK(made.length == cid.consumed && is_written(made.status, encoding, room, bytes, cid.consumed));
        multihash_cid found = multihash_cid_parse(text, text_length, parsed, room);
        CHECK(found.consumed == cid.consumed && is_written(found.status, parsed, room, bytes, cid.consumed));
        made = multihash_cid_text(bytes, cid.consumed, cid.version == 0 ? 'z' : text[0], (char *)shown, room);
        CHECK(is_written(made.status, shown, room, text, made.status == MULTIHASH_OK ? text_length : text_length + 1));
        CHECK(made.length == text_length + (made.status != MULTIHASH_OK));
        CHECK(made.status != MULTIHASH_OK || shown[text_length] == '\0');
        free(encoding);
        free(parsed);
        free(shown);
    }
}

void check_cid_line(char *line)
{
    static uint8_t bytes[1024];
    char *columns[3];
    for (int i = 0; i < 3; i++) columns[i] = strtok(i == 0 ? line : NULL, "\t\n");
    CHECK(columns[2] != NULL);
    size_t length = unescape(columns[0]), bytes_length = parse_hex(columns[2], bytes, sizeof bytes);
    uint8_t *text = copy_of((const uint8_t *)columns[0], length), *input = copy_of(bytes, bytes_length);
    uint8_t *out = buffer(MULTIHASH_CID_LENGTH_MAX);
    multihash_cid cid = multihash_cid_parse((const char *)text, length, out, MULTIHASH_CID_LENGTH_MAX);
    check_result(cid, out, columns[1]);
    if (bytes_length > 0 && cid.status != MULTIHASH_CID_WRONG_PREFIX) {
        check_result(multihash_cid_from_bytes(input, bytes_length), input, columns[1]);
    }
    if (cid.status == MULTIHASH_OK) {
        CHECK(cid.consumed == bytes_length && memcmp(out, bytes, bytes_length) == 0);
        CHECK(multihash_cid_read(bytes, bytes_length + 9).consumed == bytes_length);
        check_rooms(cid, input, (const char *)text, length);
    }
    free(text);
    free(input);
    free(out);
}

static void check_encode(multihash_status status, uint64_t version, uint64_t codec, uint64_t code, size_t digest_length)
{
    uint8_t out[MULTIHASH_CID_LENGTH_MAX];
    multihash_encoded made = multihash_cid_encode(version, codec, code, digest, digest_length, out, sizeof out);
    CHECK(made.status == status && (status == MULTIHASH_OK || made.length == 0));
}

void check_cids(void)
{
    uint8_t bytes[MULTIHASH_CID_LENGTH_MAX];
    char text[MULTIHASH_CID_TEXT_SIZE] = "", bases[] = "bBmQ";
    uint64_t most = INT64_MAX;
    check_encode(MULTIHASH_OK, 1, most, most, MULTIHASH_DIGEST_MAX);
    check_encode(MULTIHASH_CID_UNKNOWN_VERSION, 2, MULTIHASH_CID_RAW, 0x12, 32);
    check_encode(MULTIHASH_OVERFLOW, 1, most + 1, 0x12, 32);
    check_encode(MULTIHASH_INVALID_CODE, 1, MULTIHASH_CID_RAW, most + 1, 32);
    check_encode(MULTIHASH_INVALID_SIZE, 1, MULTIHASH_CID_RAW, 0x12, MULTIHASH_DIGEST_MAX + 1);
    check_encode(MULTIHASH_CID_NOT_VERSION_0, 0, MULTIHASH_CID_RAW, 0x12, 32);
    check_encode(MULTIHASH_CID_NOT_VERSION_0, 0, MULTIHASH_CID_DAG_PB, 0x13, 32);
    check_encode(MULTIHASH_CID_NOT_VERSION_0, 0, MULTIHASH_CID_DAG_PB, 0x12, 31);
    size_t length = multihash_cid_encode(0, MULTIHASH_CID_DAG_PB, 0x12, digest, 32, bytes, sizeof bytes).length;
    for (size_t i = 0; i < sizeof bases; i++) {
        CHECK(multihash_cid_text(bytes, length, bases[i], text, sizeof text).status == MULTIHASH_CID_UNKNOWN_BASE);
    }
    CHECK(multihash_cid_text(bytes, length - 1, 'z', text, sizeof text).status == MULTIHASH_UNEXPECTED_EOF);
    CHECK(text[0] == '\0' && strcmp(multihash_cid_status_text(99), "unknown status") == 0);
    CHECK(strstr(multihash_cid_status_text(multihash_cid_parse(text, 0, bytes, length).status), "empty") != NULL);
}
