/* SPDX-License-Identifier: MIT
 * Copyright (c) 2026 The Gilmekhus developers */

/* The function of multihash_frame.h, over multihash_read_varint. */
#include "multihash_frame.h"

multihash_frame multihash_read_frame(multihash_stream_read *reader, void *stream, uint8_t *out, size_t out_length)
{
    uint8_t bytes[MULTIHASH_VARINT_LENGTH_MAX];
    multihash_frame frame = {.status = MULTIHASH_FRAME_END};
    do {
        if (reader(stream, bytes + frame.consumed, 1) == 0) return frame;
        frame.consumed++;
        const multihash_varint varint = multihash_read_varint(bytes, frame.consumed);
        frame.status = varint.status;
        frame.length = varint.value;
    } while (frame.status == MULTIHASH_INSUFFICIENT);
    if (frame.status != MULTIHASH_OK) return frame;
    if (frame.length > out_length) {
        frame.status = MULTIHASH_NO_ROOM;
        return frame;
    }
    const size_t length = (size_t)frame.length, got = reader(stream, out, length);
    frame.consumed += got;
    if (got < length) frame.status = MULTIHASH_UNEXPECTED_EOF;
    return frame;
}
