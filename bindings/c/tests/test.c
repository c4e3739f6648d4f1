/* The tests of the library, for what compilers make of multihash.c, which `proof` checks for all inputs, and for the
 * other headers. C11. Exits with status 1 at the first error.
 *
 *   test LIST..     LIST is a list of crates/vectors/data; one of CIDs has cids in its name */
#include "check.h"
#include "multihash_frame.h"
#include "multihash_message.h"
#include "multihash_names.h"

#include <inttypes.h>

/* ---- The test vectors */

/* Compares a result with its column: a word, a number and a digest. Where there is none the fields are 0. */
static void check_result(multihash_decoded result, const uint8_t *input, const char *column, const char *consumed)
{
    char word[32], digits[2 * MULTIHASH_DIGEST_MAX + 1] = "-";
    uint8_t digest[MULTIHASH_DIGEST_MAX];
    uint64_t number = 0;
    CHECK(sscanf(column, "%31s %" SCNu64 " %510s", word, &number, digits) > 0);
    check_word(result.status, word);
    CHECK(number == (result.status == MULTIHASH_INVALID_SIZE ? result.size : result.code));
    CHECK((result.status == MULTIHASH_INVALID_SIZE ? result.code : result.size) == 0);
    CHECK(parse_hex(digits, digest, sizeof digest) == result.digest_length);
    CHECK(result.digest_length == 0 || memcmp(digest, input + result.digest_offset, result.digest_length) == 0);
    CHECK(result.status == MULTIHASH_OK || result.digest_offset == 0);
    CHECK(strcmp(consumed, "-") == 0 || result.consumed == strtoul(consumed, NULL, 10));
}

typedef multihash_encoded (*encoder)(uint64_t, const uint8_t *, size_t, uint8_t *, size_t);

/* A code and a digest have this encoding. A smaller buffer is too small. */
static void check_encoding(encoder encode, uint64_t code, const uint8_t *digest, size_t digest_length,
                           const uint8_t *wanted, size_t length)
{
    uint8_t *out = buffer(length);
    multihash_encoded result = encode(code, digest, digest_length, out, length - 1);
    CHECK(result.status == MULTIHASH_NO_ROOM && result.size == 0 && result.length == length);
    result = encode(code, digest, digest_length, out, length);
    CHECK(result.status == MULTIHASH_OK && result.size == 0 && result.length == length);
    CHECK(memcmp(out, wanted, length) == 0);
    free(out);
}

/* The multihash at the start of an input of that length, by the other calls. */
static void check_accepted(const uint8_t *input, size_t length, multihash_decoded result)
{
    multihash_item item;
    multihash_head head = multihash_read_head(input, length);
    multihash_varint code = multihash_read_varint(input, length);
    multihash_batch batch = multihash_read_many(input, length, &item, 1);
    const size_t start = result.digest_offset;
    CHECK(head.status == MULTIHASH_OK && head.code == result.code && head.consumed == start);
    CHECK(head.digest_length == result.digest_length && start + result.digest_length == result.consumed);
    CHECK(code.status == MULTIHASH_OK && code.value == result.code && code.length < start);
    CHECK(batch.status == MULTIHASH_OK && batch.size == 0 && batch.count == 1 && batch.consumed == result.consumed);
    CHECK(item.code == result.code && item.digest_offset == start && item.digest_length == result.digest_length);
    CHECK(multihash_encoded_length(result.code, result.digest_length).length == result.consumed);
    check_encoding(multihash_encode, result.code, input + start, result.digest_length, input, result.consumed);
}

/* A limit, an input, and what the calls return. Only multihash_read_limit has another limit than 255. */
static void check_verdict(const char *const *column)
{
    static uint8_t bytes[4096];
    size_t limit = strtoul(column[0], NULL, 10), length = parse_hex(column[1], bytes, sizeof bytes);
    uint8_t *input = copy_of(bytes, length);
    multihash_decoded result = multihash_read_limit(input, length, limit > MULTIHASH_DIGEST_MAX ? SIZE_MAX : limit);
    check_result(result, input, column[2], column[3]);
    if (result.status == MULTIHASH_OK) check_accepted(input, length, result);
    if (limit >= MULTIHASH_DIGEST_MAX) {
        const size_t prefix = length < MULTIHASH_HEAD_MAX ? length : MULTIHASH_HEAD_MAX;
        multihash_decoded scale = multihash_scale_decode(input, length);
        check_result(multihash_read(input, length), input, column[2], column[3]);
        check_result(multihash_from_bytes(input, length), input, column[4], "-");
        check_result(multihash_from_prefix(input, prefix, length), input, column[4], "-");
        check_result(scale, input, column[5], column[6]);
        if (scale.status == MULTIHASH_OK) {
            const uint8_t *digest = input + scale.digest_offset;
            check_encoding(multihash_scale_encode, scale.code, digest, scale.digest_length, input, scale.consumed);
        }
    }
    free(input);
}

/* How two multihashes compare: the code and the digest of each, and -1, 0 or 1. */
static void check_order(const char *const *column)
{
    uint8_t left[MULTIHASH_DIGEST_MAX], right[MULTIHASH_DIGEST_MAX];
    uint64_t code = strtoull(column[0], NULL, 10), other_code = strtoull(column[2], NULL, 10);
    size_t length = parse_hex(column[1], left, sizeof left), other_length = parse_hex(column[3], right, sizeof right);
    int order = (int)strtol(column[4], NULL, 10);
    CHECK(multihash_compare(code, left, length, other_code, right, other_length) == order);
}

/* The encoding of a pair is that of the column, or the error. */
static void check_encoded(encoder encode, uint64_t code, const uint8_t *digest, size_t length, const char *column)
{
    uint8_t wanted[MULTIHASH_LENGTH_MAX], out[MULTIHASH_LENGTH_MAX] = {0};
    char word[32];
    uint64_t number = 0;
    if (strncmp(column, "invalid", 7) != 0) {
        check_encoding(encode, code, digest, length, wanted, parse_hex(column, wanted, sizeof wanted));
        return;
    }
    multihash_encoded result = encode(code, digest, length, out, sizeof out);
    CHECK(sscanf(column, "%31s %" SCNu64, word, &number) == 2);
    check_word(result.status, word);
    CHECK(number == (result.status == MULTIHASH_INVALID_SIZE ? result.size : code) && result.length == 0);
    CHECK(multihash_encoded_length(code, length).status == result.status && out[0] == 0);
}

/* A limit, a code, a digest, and both encodings. The encoders have the limit 255: lines that only a smaller one rejects
 * are left out. */
static void check_value(const char *const *column)
{
    uint8_t digest[300];
    size_t limit = strtoul(column[0], NULL, 10), length = parse_hex(column[2], digest, sizeof digest);
    uint64_t code = strtoull(column[1], NULL, 10);
    if (limit < length && length <= MULTIHASH_DIGEST_MAX) return;
    check_encoded(multihash_encode, code, digest, length, column[3]);
    check_encoded(multihash_scale_encode, code, digest, length, column[4]);
}

/* The call, a limit, an input, the status of its error, and the message. */
static void check_message(const char *const *column)
{
    char message[MULTIHASH_MESSAGE_SIZE];
    uint8_t bytes[MULTIHASH_HEAD_MAX];
    int is_scale = strcmp(column[0], "scale_decode") == 0, is_read = strcmp(column[0], "read") == 0, written;
    size_t limit = (size_t)strtoull(column[1], NULL, 10), length = parse_hex(column[2], bytes, sizeof bytes);
    uint8_t *input = copy_of(bytes, length);
    if (is_scale) {
        check_word(multihash_scale_decode(input, length).status, column[3]);
        written = multihash_scale_message(message, sizeof message, input, length);
    } else {
        if (is_read) check_word(multihash_read_limit(input, length, limit).status, column[3]);
        if (limit == MULTIHASH_DIGEST_MAX) check_word(multihash_from_bytes(input, length).status, column[3]);
        written = multihash_message(message, sizeof message, input, length, limit);
    }
    CHECK(strcmp(message, column[4]) == 0 && written == (int)strlen(message));
    free(input);
}

/* A code and its name; another column may follow. */
static void check_name(const char *const *column)
{
    const uint64_t code = strtoull(column[0], NULL, 16);
    CHECK(strcmp(multihash_name(code), column[1]) == 0);
    CHECK(multihash_code(column[1]) == code);
}

/* The first column of a line says what the others are: of verdicts it is a limit, and of names a code. */
static void check_line(char *line)
{
    const char *column[7];
    for (int i = 0; i < 7; i++) column[i] = strtok(i == 0 ? line : NULL, "\t\n");
    if (strcmp(column[0], "order") == 0) {
        check_order(column + 1);
    } else if (strcmp(column[0], "value") == 0) {
        check_value(column + 1);
    } else if (strcmp(column[0], "message") == 0) {
        check_message(column + 1);
    } else if (strncmp(column[0], "0x", 2) == 0) {
        check_name(column);
    } else {
        check_verdict(column);
    }
}

/* ---- What they do not have */

/* A number, and the bytes of its varint. */
static void check_varint(uint64_t value, const char *bytes, size_t length)
{
    uint8_t out[MULTIHASH_VARINT_LENGTH_MAX];
    const multihash_varint found = multihash_read_varint((const uint8_t *)bytes, length);
    CHECK(found.status == MULTIHASH_OK && found.value == value && found.length == length);
    const multihash_encoded made = multihash_write_varint(value, out, sizeof out);
    CHECK(made.status == MULTIHASH_OK && made.length == length && memcmp(out, bytes, length) == 0);
    CHECK(multihash_write_varint(value, out, length - 1).status == MULTIHASH_NO_ROOM);
}

/* Numbers where a varint gets longer. */
static void check_varints(void)
{
    uint8_t out[MULTIHASH_VARINT_LENGTH_MAX];
    check_varint(0, "\0", 1);
    check_varint(127, "\x7f", 1);
    check_varint(128, "\x80\1", 2);
    check_varint(16383, "\xff\x7f", 2);
    check_varint(16384, "\x80\x80\1", 3);
    check_varint((uint64_t)1 << 56, "\x80\x80\x80\x80\x80\x80\x80\x80\1", 9);
    check_varint(INT64_MAX, "\xff\xff\xff\xff\xff\xff\xff\xff\x7f", 9);
    CHECK(multihash_write_varint((uint64_t)1 << 63, out, sizeof out).status == MULTIHASH_OVERFLOW);
}

/* A stream in memory, and what was read of it. */
struct memory {
    const uint8_t *bytes;
    size_t length, at;
};

static size_t read_memory(void *stream, uint8_t *to, size_t length)
{
    struct memory *from = (struct memory *)stream;
    if (length > from->length - from->at) length = from->length - from->at;
    memcpy(to, from->bytes + from->at, length);
    from->at += length;
    return length;
}

/* A stream of frames that ends at each byte: the frames before its end, and how it ends. */
static void check_cut_frames(void)
{
    static const size_t ends[] = {0, 1, 5, 137};
    static const uint8_t bytes[137] = {0, 3, 'a', 'b', 'c', 130, 1, 'd', 'e', 'f'};
    uint8_t out[130];
    for (size_t cut = 0; cut <= sizeof bytes; cut++) {
        struct memory from = {bytes, cut, 0};
        multihash_frame frame = multihash_read_frame(read_memory, &from, out, sizeof out);
        size_t count = 0;
        for (; frame.status == MULTIHASH_OK; frame = multihash_read_frame(read_memory, &from, out, sizeof out)) {
            CHECK(from.at == ends[++count] && frame.consumed == from.at - ends[count - 1]);
            CHECK(memcmp(out, bytes + from.at - frame.length, (size_t)frame.length) == 0);
        }
        CHECK((count == 3 || cut < ends[count + 1]) && frame.consumed == cut - ends[count]);
        multihash_status inside = cut == 6 ? MULTIHASH_INSUFFICIENT : MULTIHASH_UNEXPECTED_EOF; /* in the last varint */
        CHECK(frame.status == (cut == ends[count] ? MULTIHASH_FRAME_END : inside));
    }
}

/* A frame is rejected, and no byte after its varint is read. */
static void check_rejected_frame(const char *bytes, multihash_status status, uint64_t length, size_t consumed)
{
    uint8_t out[130];
    struct memory from = {(const uint8_t *)bytes, 10, 0};
    multihash_frame frame = multihash_read_frame(read_memory, &from, out, sizeof out);
    CHECK(frame.status == status && frame.length == length && frame.consumed == consumed && from.at == consumed);
}

static void check_version(void)
{
    char text[32];
    unsigned number = multihash_version();
    snprintf(text, sizeof text, "%u.%u.%u", number / 10000, number / 100 % 100, number % 100);
    CHECK(number == MULTIHASH_VERSION_NUMBER);
    CHECK(strcmp(text, MULTIHASH_VERSION) == 0);
}

/* Names that hashes.tsv and codes.tsv do not have: of BLAKE2 and Skein by their lengths, and what is none. */
static void check_names(void)
{
    CHECK(strcmp(multihash_name(0xb214), "blake2b-160") == 0 && multihash_code("skein512-256") == 0xb340);
    CHECK(multihash_name(1) == NULL && multihash_name(MULTIHASH_NO_CODE) == NULL);
    CHECK(multihash_code("") == MULTIHASH_NO_CODE && multihash_code("sha2-25") == MULTIHASH_NO_CODE);
    CHECK(multihash_code("sha2-2566") == MULTIHASH_NO_CODE && multihash_code("SHA2-256") == MULTIHASH_NO_CODE);
}

static char message[MULTIHASH_MESSAGE_SIZE];

/* Compares the message that was written, whose length was returned. */
static void check_message_is(int length, const char *wanted)
{
    if (strcmp(message, wanted) != 0) fprintf(stderr, "found: %s\n", message);
    CHECK(strcmp(message, wanted) == 0 && length == (int)strlen(wanted));
}

/* Compares the message for an encoding that failed where `out` has that many bytes. */
static void check_encode(multihash_encoded result, uint64_t code, size_t out_length, const char *wanted)
{
    check_message_is(multihash_encode_message(message, sizeof message, result, code, out_length), wanted);
}

/* Messages that messages.tsv of crates/vectors does not have: of encodings, of a prefix of a longer input, truncated
 * ones, and of what is not an error. */
static void check_messages(void)
{
    static const uint8_t digest[300] = {0}, ok[] = {0, 1, 7};
    const uint64_t large = (uint64_t)INT64_MAX + 1;
    const size_t any = MULTIHASH_DIGEST_MAX;
    volatile size_t short_size = 4; /* GCC warns of a constant that truncates */
    uint8_t out[10];
    check_encode(multihash_encode(18, digest, 300, out, 10), 18, 10, "the digest has 300 bytes, and the limit is 255");
    check_encode(multihash_encode(large, digest, 32, out, 10), large, 10,
                 "the code 9223372036854775808 is 2^63 or more");
    check_encode(multihash_encode(18, digest, 32, out, 10), 18, 10, "the buffer has 10 bytes, and 34 are needed");
    check_encode(multihash_scale_encode(18, digest, 32, out, 1), 18, 1, "the buffer has 1 byte, and 41 are needed");
    check_encode(multihash_encode(0, NULL, 0, NULL, 0), 0, 0, "the buffer has 0 bytes, and 2 are needed");
    check_encode(multihash_encoded_length(0, 0), 0, 0, "ok");

    check_message_is(multihash_message(message, sizeof message, digest, 1000, any), "998 bytes follow the multihash");
    CHECK(multihash_message(message, short_size, ok, 0, any) == 18 && strcmp(message, "the") == 0);
    CHECK(multihash_message(NULL, 0, ok, 0, any) == 18);
    check_message_is(multihash_message(message, sizeof message, ok, sizeof ok, any), "ok");
    check_message_is(multihash_scale_message(message, sizeof message, digest, 9), "ok");
}

/* Checks each line of a list but the first. */
static void replay(const char *name)
{
    static char line[8192];
    void (*check)(char *) = strstr(name, "cids") != NULL ? check_cid_line : check_line;
    FILE *list = fopen(name, "r");
    CHECK(list != NULL && fgets(line, sizeof line, list) != NULL);
    while (fgets(line, sizeof line, list) != NULL) check(line);
    CHECK(fclose(list) == 0);
}

int main(int argc, char **argv)
{
    CHECK(argc > 1);
    check_varints();
    check_cut_frames();
    check_rejected_frame("\x83\1abcdefgh", MULTIHASH_NO_ROOM, 131, 2);
    check_rejected_frame("\x80\0abcdefgh", MULTIHASH_NOT_MINIMAL, 0, 2);
    check_rejected_frame("\x80\x80\x80\x80\x80\x80\x80\x80\x80\1", MULTIHASH_OVERFLOW, 0, 9);
    check_version();
    check_names();
    check_messages();
    check_cids();
    for (int i = 1; i < argc; i++) replay(argv[i]);
    return 0;
}
