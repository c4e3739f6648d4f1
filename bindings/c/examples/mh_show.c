/* The program mh_show: reads one line of hexadecimal from standard input, and shows the multihash that it encodes: its
 * code, its size and its digest, each on a line. Arguments are ignored. Its man page is mh_show(1). */
#include "multihash.h"

#include <inttypes.h>
#include <signal.h>
#include <stdio.h>

enum {
    INPUT_MAX = 65536, /* the most bytes of standard input */
    DIGEST_LIMIT = 64  /* the most bytes of a digest */
};

/* Returns the value of a hexadecimal digit of either case, or -1. */
static int digit_value(uint8_t digit)
{
    if (digit >= '0' && digit <= '9') return digit - '0';
    if (digit >= 'a' && digit <= 'f') return digit - 'a' + 10;
    if (digit >= 'A' && digit <= 'F') return digit - 'A' + 10;
    return -1;
}

/* Decodes a line of hexadecimal in place. Returns 0 if it is not an even number of hexadecimal digits. */
static int decode_hexadecimal(uint8_t *line, size_t length)
{
    for (size_t i = 0; i + 1 < length; i += 2) {
        int high = digit_value(line[i]), low = digit_value(line[i + 1]);
        if (high < 0 || low < 0) return 0;
        line[i / 2] = (uint8_t)(high << 4 | low);
    }
    return length % 2 == 0;
}

/* Decodes the multihash that is the whole of `bytes`, with a digest of at most DIGEST_LIMIT bytes. */
static multihash_decoded decode_multihash(const uint8_t *bytes, size_t length)
{
    multihash_decoded found = multihash_read_limit(bytes, length, DIGEST_LIMIT);
    if (found.status == MULTIHASH_OK && found.consumed < length) {
        found.status = MULTIHASH_INVALID_SIZE;
        found.size = length - found.consumed;
    }
    return found;
}

/* Prints the code, the size and the digest. Returns whether all of it was written. */
static int print_multihash(multihash_decoded found, const uint8_t *digest)
{
    printf("code %" PRIu64 "\nsize %zu\ndigest ", found.code, found.digest_length);
    for (size_t i = 0; i < found.digest_length; i++) printf("%02x", digest[i]);
    printf("%s\n", found.digest_length == 0 ? "-" : "");
    return fflush(stdout) == 0 && !ferror(stdout);
}

/* Why a decoding failed, in the words of the Rust crate multihash, since mh_show in Rattle prints these. */
static const char *const reasons[] = {
    [MULTIHASH_INSUFFICIENT] = "not enough input bytes",
    [MULTIHASH_OVERFLOW] = "input bytes exceed maximum",
    [MULTIHASH_NOT_MINIMAL] = "encoding is not minimal",
    [MULTIHASH_UNEXPECTED_EOF] = "failed to fill whole buffer",
};

/* Prints the reason of a failure to standard error. Returns the exit status. */
static int fail(const char *reason)
{
    fprintf(stderr, "mh_show: %s\n", reason);
    return 1;
}

int main(void)
{
#ifdef SIGPIPE
    signal(SIGPIPE, SIG_IGN); /* so that a write to a closed pipe fails */
#endif
    static uint8_t text[INPUT_MAX + 1]; /* one byte more, so that too long an input fills it */
    size_t length = fread(text, 1, sizeof text, stdin);
    if (ferror(stdin) || length > INPUT_MAX) return fail("input not read");

    if (length > 0 && text[length - 1] == '\n') length--;
    if (!decode_hexadecimal(text, length)) return fail("not hexadecimal");

    multihash_decoded found = decode_multihash(text, length / 2);
    if (found.status == MULTIHASH_INVALID_SIZE) {
        fprintf(stderr, "mh_show: Invalid multihash size %" PRIu64 ".\n", found.size);
        return 1;
    }
    if (found.status != MULTIHASH_OK) return fail(reasons[found.status]);
    return print_multihash(found, text + found.digest_offset) ? 0 : fail("output not written");
}
