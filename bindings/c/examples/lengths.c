/* SPDX-License-Identifier: MIT
 * Copyright (c) 2026 The Gilmekhus developers */

/* Prints the name of the hash function and the digest's length of each multihash in a file. It keeps the bytes of a
 * multihash that is not complete, and reads more after them.
 *
 *   cc lengths.c $(pkg-config --cflags --libs multihash_c) -o lengths && ./lengths < FILE */
#include <multihash_message.h>
#include <multihash_names.h>
#include <string.h>

int main(void)
{
    static uint8_t bytes[1 << 16];
    static multihash_item items[256];
    size_t kept = 0, more;
    do {
        more = fread(bytes + kept, 1, sizeof bytes - kept, stdin);
        size_t length = kept + more, at = 0;
        multihash_batch batch;
        do {
            batch = multihash_read_many(bytes + at, length - at, items, 256);
            for (size_t i = 0; i < batch.count; i++) {
                const char *name = multihash_name(items[i].code);
                printf("%s %zu\n", name != NULL ? name : "unknown", items[i].digest_length);
            }
            at += batch.consumed;
        } while (batch.count == 256);
        if (batch.status != MULTIHASH_OK && !(multihash_is_incomplete(batch.status) && more > 0)) {
            multihash_print_message(stderr, bytes + at, length - at, MULTIHASH_DIGEST_MAX);
            return 1;
        }
        kept = length - at;
        memmove(bytes, bytes + at, kept);
    } while (more > 0);
    return 0;
}
