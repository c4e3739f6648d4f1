/* SPDX-License-Identifier: MIT
 * Copyright (c) 2026 The Gilmekhus developers */

/* Frames of a stream: a varint, and then as many bytes, such as a section of a CAR file or a message of libp2p. The
 * function is in multihash_frame.c. It calls only multihash_read_varint and `reader`, and allocates nothing. */
#ifndef MULTIHASH_FRAME_H
#define MULTIHASH_FRAME_H

#include "multihash.h"

#ifdef __cplusplus
extern "C" {
#endif

/* The status of a stream that ends where a frame would start, besides those of multihash.h. */
#define MULTIHASH_FRAME_END 32

/* Reads up to `length` bytes of a stream to `to`. Returns the number of bytes read, which is less than `length` only if
 * the stream ends or fails. fread does that for a file. */
typedef size_t multihash_stream_read(void *stream, uint8_t *to, size_t length);

/* The result of reading a frame. */
typedef struct multihash_frame {
    multihash_status status;
    uint64_t length; /* once its varint was read: the frame's length in bytes, without the varint; below 2^63 */
    size_t consumed; /* always: the number of bytes read from the stream */
} multihash_frame;

/* Reads the next frame of a stream by `reader`, and no byte after it. Writes its bytes, without the varint, to the
 * start of `out`, which has `out_length` bytes: a longer frame is rejected before its bytes are read.
 *
 * Returns: the frame's length.
 * Errors:  MULTIHASH_FRAME_END if the stream ends before the frame; MULTIHASH_INSUFFICIENT if it ends inside the
 *          varint; MULTIHASH_UNEXPECTED_EOF if it ends after the varint: then `out` has what was read;
 *          MULTIHASH_OVERFLOW, MULTIHASH_NOT_MINIMAL; MULTIHASH_NO_ROOM with the size that `out` needs in `length`. A
 *          stream that fails seems to end: for a file, ferror distinguishes that. */
multihash_frame multihash_read_frame(multihash_stream_read *reader, void *stream, uint8_t *out, size_t out_length);

#ifdef __cplusplus
}
#endif

#endif
