/* Calls the reader of the example stream.c over pipes that pause and end at each byte, and continue. C11 on POSIX.
 * Exits with status 1 at the first error. */
int example_main(void);
#define main example_main /* the example's own main, which is not called */
#include <stream.c>
#undef main

#include "check.h"

#include <fcntl.h>

/* A stream of multihashes, and where each ends: the last one has a digest of 128 bytes. */
enum { ITEMS = 4 };
static uint8_t whole[149] = "\x12\3abc\0\0\xff\xff\xff\xff\xff\xff\xff\xff\x7f\1z\x13\x80\1";
static const size_t ends[ITEMS + 1] = {0, 5, 7, 18, sizeof whole};

/* Lets a stream read bytes from a pipe, and then wait. Returns the end for writing. */
static int open_pipe(stream *from, const void *bytes, size_t length)
{
    int pair[2];
    CHECK(pipe(pair) == 0 && fcntl(pair[0], F_SETFL, O_NONBLOCK) == 0);
    CHECK(write(pair[1], bytes, length) == (ssize_t)length);
    from->descriptor = pair[0];
    return pair[1];
}

/* Reads the multihashes that are complete: each is the next item, and no byte after it was read. */
static stream_result read_on(stream *from, size_t *at)
{
    multihash_decoded found;
    stream_result result;
    for (; (result = next_multihash(from, &found)) == STREAM_FOUND; *at += 1) {
        CHECK(*at < ITEMS && from->have == ends[*at + 1] - ends[*at]);
        CHECK(memcmp(from->bytes, whole + ends[*at], from->have) == 0);
        CHECK(found.status == MULTIHASH_OK && found.consumed == from->have);
    }
    return result;
}

/* The stream pauses at a byte, ends there, and continues in another pipe. */
static void check_cut(size_t cut)
{
    stream from = {.limit = MULTIHASH_DIGEST_MAX};
    size_t at = 0, complete = 0;
    while (complete < ITEMS && ends[complete + 1] <= cut) complete++;
    int writer = open_pipe(&from, whole, cut);
    CHECK(read_on(&from, &at) == STREAM_FAILED && at == complete && errno == EAGAIN);
    CHECK(close(writer) == 0);
    CHECK(read_on(&from, &at) == (ends[complete] == cut ? STREAM_END : STREAM_CUT) && at == complete);
    CHECK(close(from.descriptor) == 0 && close(open_pipe(&from, whole + cut, sizeof whole - cut)) == 0);
    CHECK(read_on(&from, &at) == STREAM_END && at == ITEMS && close(from.descriptor) == 0);
}

/* Each call rejects the stream. No byte is read after the one that determines the error. */
static void check_rejected(const char *bytes, size_t length, multihash_status status, size_t consumed)
{
    uint8_t rest[64];
    multihash_decoded found;
    stream from = {.limit = 64};
    CHECK(close(open_pipe(&from, bytes, length)) == 0);
    for (int again = 0; again < 2; again++) {
        CHECK(next_multihash(&from, &found) == STREAM_REJECTED && found.status == status && found.consumed == consumed);
    }
    CHECK(read(from.descriptor, rest, sizeof rest) == (ssize_t)(length - consumed) && close(from.descriptor) == 0);
}

int main(void)
{
    for (size_t i = ends[3] + 3; i < sizeof whole; i++) whole[i] = (uint8_t)i;
    for (size_t cut = 0; cut <= sizeof whole; cut++) check_cut(cut);
    check_rejected("\x12\x41\x07\x07", 4, MULTIHASH_INVALID_SIZE, 2);
    check_rejected("\x80\x00\x07", 3, MULTIHASH_NOT_MINIMAL, 2);
    return 0;
}
