/* Shows the multihashes of standard input. The reader reads no byte after a multihash, rejects a digest that is too
 * long before it reads it, and continues where a stream was truncated or had to wait. */
#define _POSIX_C_SOURCE 200809L
#include "multihash_message.h"

#include <errno.h>
#include <inttypes.h>
#include <stdio.h>
#include <unistd.h>

typedef struct stream {
    int descriptor;
    size_t limit; /* the longest digest that is accepted, at most MULTIHASH_DIGEST_MAX */
    size_t have;  /* the number of bytes of the next multihash that were read */
    int is_whole; /* whether these were returned: then the next call starts anew */
    uint8_t bytes[MULTIHASH_LENGTH_MAX];
} stream;

typedef enum stream_result {
    STREAM_FOUND,    /* a multihash is in `bytes`, until the next call */
    STREAM_REJECTED, /* there is none: the rest of the stream cannot be read */
    STREAM_END,      /* the stream ends after the last multihash */
    STREAM_CUT,      /* it ends within one */
    STREAM_FAILED    /* a read failed or has to wait: see `errno` */
} stream_result;

/* The number of further bytes that certainly belong to the multihash: an encoding has at least two, and until both
 * varints are complete one more is all that is known. */
static size_t missing(const stream *from, multihash_head head)
{
    if (head.status == MULTIHASH_OK) return head.consumed + (size_t)head.digest_length - from->have;
    return from->have == 0 ? 2 : 1;
}

/* Reads the next multihash, and nothing after it. At STREAM_CUT and STREAM_FAILED what was read is kept: once there is
 * more, or another descriptor is set, the next call continues. */
static stream_result next_multihash(stream *from, multihash_decoded *found)
{
    if (from->is_whole) from->have = 0;
    from->is_whole = 0;
    for (;;) {
        multihash_head head = multihash_read_head(from->bytes, from->have);
        int is_known = head.status != MULTIHASH_INSUFFICIENT;
        int is_rejected = is_known && (head.status != MULTIHASH_OK || head.digest_length > from->limit);
        if (is_rejected || missing(from, head) == 0) {
            *found = multihash_read_limit(from->bytes, from->have, from->limit);
            from->is_whole = !is_rejected;
            return is_rejected ? STREAM_REJECTED : STREAM_FOUND;
        }
        ssize_t got = read(from->descriptor, from->bytes + from->have, missing(from, head));
        if (got == 0) return from->have == 0 ? STREAM_END : STREAM_CUT;
        if (got > 0) from->have += (size_t)got;
        if (got < 0 && errno != EINTR) return STREAM_FAILED;
    }
}

int main(void)
{
    stream from = {.descriptor = STDIN_FILENO, .limit = 64};
    multihash_decoded found;
    stream_result result;
    while ((result = next_multihash(&from, &found)) == STREAM_FOUND) {
        printf("code %" PRIu64 "\nsize %zu\ndigest ", found.code, found.digest_length);
        for (size_t i = 0; i < found.digest_length; i++) printf("%02x", from.bytes[found.digest_offset + i]);
        printf("\n");
    }
    if (result == STREAM_REJECTED || result == STREAM_CUT) {
        multihash_print_message(stderr, from.bytes, from.have, from.limit);
    }
    if (result == STREAM_FAILED) perror("read");
    if (fflush(stdout) != 0 || ferror(stdout)) {
        fprintf(stderr, "the output cannot be written\n");
        return 1;
    }
    return result == STREAM_END ? 0 : 1;
}
