/* Prints the nanoseconds of each call of the library for C, or for each of many multihashes: the least of several turns. */
#include <stdio.h>
#include <string.h>
#include <time.h>

#include "multihash.h"

enum { TURNS = 20, CALLS = 100000, COUNT = 1000, LENGTH = 34, LONGER = 36 };

static uint8_t list[COUNT * LENGTH], longer[COUNT * LONGER], out[MULTIHASH_LENGTH_MAX];
static multihash_item items[COUNT];
static volatile size_t sink;

static void from_bytes(size_t i) { sink = multihash_from_bytes(list + i % COUNT * LENGTH, LENGTH).digest_length; }
static void from_bytes_longer(size_t i) { sink = multihash_from_bytes(longer + i % COUNT * LONGER, LONGER).digest_length; }
static void encode(size_t i) { sink = multihash_encode(18, list + i % COUNT * LENGTH + 2, 32, out, sizeof out).length; }
static void many(size_t i) { sink = i % COUNT ? 0 : multihash_read_many(list, sizeof list, items, COUNT).count; }

static void compare(size_t i)
{
    const size_t left = i % COUNT * LENGTH, right = (i + 1) % COUNT * LENGTH;
    sink = (size_t)multihash_compare(18, list + left + 2, 32, 18, list + right + 2, 32);
}

static void print_least(const char *name, void call(size_t))
{
    double least = 1e9;
    for (int turn = 0; turn < TURNS; turn++) {
        const clock_t start = clock();
        for (size_t i = 0; i < CALLS; i++) call(i);
        const double time = (double)(clock() - start) / CLOCKS_PER_SEC / CALLS * 1e9;
        if (time < least) least = time;
    }
    printf("%s\t%.1f\n", name, least);
}

int main(void)
{
    uint32_t random = 1;
    for (size_t i = 0; i < COUNT; i++) {
        uint8_t *const item = list + i * LENGTH, *const other = longer + i * LONGER;
        for (size_t at = 0; at < 32; at++) item[at + 2] = (uint8_t)((random = random * 1664525 + 1013904223) >> 24);
        memcpy(item, "\x12\x20", 2);
        memcpy(other, "\x96\xa2\x03\x20", 4);
        memcpy(other + 4, item + 2, 32);
    }
    print_least("`from_bytes` of 34 bytes", from_bytes);
    print_least("`from_bytes`, a code of 3 bytes", from_bytes_longer);
    print_least("`encode` of 32 bytes", encode);
    print_least("`compare`, random digests", compare);
    print_least("a multihash by `read_many`", many);
    return 0;
}
