/*
 * Buffers at every alignment and at the edge of what may be touched: between two pages without access, at the end of
 * the first and at the start of the last, so that a read or a write of one byte too many is a crash. Each call gives
 * the same bytes there as in a block of its own from malloc. With the argument 'small' only small stripes are tried.
 */
#define _DEFAULT_SOURCE
#include "check.h"
#include "shelf.h"
#include <stdlib.h>
#include <string.h>
#include <sys/mman.h>
#include <unistd.h>

static size_t page;

struct fenced {
    uint8_t *start; /* the first byte behind the lower fence */
    size_t size;    /* whole pages up to the upper fence */
};

static struct fenced fence(size_t size)
{
    struct fenced f;
    f.size = (size + page - 1) / page * page;
    uint8_t *all = mmap(NULL, f.size + 2 * page, PROT_READ | PROT_WRITE, MAP_PRIVATE | MAP_ANONYMOUS, -1, 0);
    if (all == MAP_FAILED || mprotect(all, page, PROT_NONE) || mprotect(all + page + f.size, page, PROT_NONE)) {
        perror("buffers: fence");
        exit(2);
    }
    f.start = all + page;
    return f;
}

static void unfence(struct fenced f)
{
    munmap(f.start - page, f.size + 2 * page);
}

static void fill(uint8_t *at, size_t count, unsigned seed)
{
    for (size_t i = 0; i < count; i++)
        at[i] = (uint8_t)((seed = seed * 1103515245u + 12345u) >> 16);
}

static void *copy(const uint8_t *from, size_t count)
{
    uint8_t *to = malloc(count ? count : 1);
    if (!to)
        exit(2);
    return memcpy(to, from, count);
}

/* One device wrong in every other column of an encoded stripe, checked and repaired. */
static void mend(uint64_t n, uint64_t b, uint8_t *stripe, uint64_t place, uint16_t *verdicts, uint16_t *summary)
{
    size_t length = (size_t)((n + 2) * b), wrong = 0;
    uint16_t name = place < n ? (uint16_t)(SHELF_VERDICT_DATA + place) : (uint16_t)(SHELF_VERDICT_P + place - n);
    for (size_t i = 0; i < b; i += 2)
        stripe[place * b + i] ^= (uint8_t)(1 + i % 255);
    CHECK(shelf_check(n, b, stripe, length, verdicts, (size_t)b, summary) == SHELF_DONE);
    CHECK(*summary == name);
    for (size_t i = 0; i < b; i++)
        wrong += verdicts[i] != (i % 2 ? SHELF_VERDICT_CLEAN : name);
    CHECK(wrong == 0);
    CHECK(shelf_repair(n, b, stripe, length) == SHELF_DONE);
}

/* Every call on the stripe at this place, against the same call on a copy of its own. */
static void calls(uint64_t n, uint64_t b, uint8_t *stripe, const uint8_t *bytes, size_t count, uint16_t *verdicts, uint16_t *summary)
{
    size_t length = (size_t)((n + 2) * b);
    uint64_t offset = b - count;
    uint8_t *apart = copy(stripe, length), *new_bytes = copy(bytes, count);

    CHECK(shelf_write(n, b, stripe, length, n - 1, offset, bytes, count) == SHELF_DONE);
    CHECK(shelf_write(n, b, apart, length, n - 1, offset, new_bytes, count) == SHELF_DONE);
    CHECK(memcmp(stripe, apart, length) == 0);
    CHECK(memcmp(stripe + (n - 1) * b + offset, bytes, count) == 0);

    CHECK(shelf_encode(n, b, stripe, length) == SHELF_DONE);
    CHECK(shelf_encode(n, b, apart, length) == SHELF_DONE);
    CHECK(memcmp(stripe, apart, length) == 0);

    /* what is lost from an encoded stripe comes back */
    const uint64_t pairs[][2] = {{0, SHELF_NONE}, {SHELF_P, SHELF_NONE}, {SHELF_Q, SHELF_NONE}, {n - 1, SHELF_P},
                                 {0, SHELF_Q},    {SHELF_P, SHELF_Q},    {0, n - 1}};
    for (size_t k = 0; k < sizeof pairs / sizeof *pairs; k++) {
        if (pairs[k][0] == pairs[k][1])
            continue;
        for (int j = 0; j < 2; j++) {
            uint64_t code = pairs[k][j];
            uint64_t place = code == SHELF_P ? n : code == SHELF_Q ? n + 1 : code;
            if (code != SHELF_NONE)
                fill(stripe + place * b, (size_t)b, (unsigned)k);
        }
        CHECK(shelf_rebuild(n, b, stripe, length, pairs[k][0], pairs[k][1]) == SHELF_DONE);
        CHECK(memcmp(stripe, apart, length) == 0);
    }

    const uint64_t places[] = {0, n - 1, n, n + 1};
    for (size_t k = 0; k < sizeof places / sizeof *places; k++) {
        mend(n, b, stripe, places[k], verdicts, summary);
        CHECK(memcmp(stripe, apart, length) == 0);
    }
    free(apart);
    free(new_bytes);
}

static void at_the_fences(uint64_t n, uint64_t b)
{
    size_t length = (size_t)((n + 2) * b), count = (size_t)(b + 1) / 2;
    size_t room = (size_t)b * sizeof(uint16_t);
    struct fenced stripe = fence(length), bytes = fence(count), verdicts = fence(room), summary = fence(sizeof(uint16_t));
    uint8_t *stripes[2] = {stripe.start + stripe.size - length, stripe.start};
    uint8_t *sources[2] = {bytes.start + bytes.size - count, bytes.start};
    uint16_t *rooms[2] = {(void *)(verdicts.start + verdicts.size - room), (void *)verdicts.start};
    uint16_t *summaries[2] = {(void *)(summary.start + summary.size - sizeof(uint16_t)), (void *)summary.start};
    for (int k = 0; k < 2; k++) {
        fill(stripes[k], length, (unsigned)(n + b));
        fill(sources[k], count, (unsigned)(n * b));
        /* the new bytes are only read */
        mprotect(bytes.start, bytes.size, PROT_READ);
        calls(n, b, stripes[k], sources[k], count, rooms[k], summaries[k]);
        mprotect(bytes.start, bytes.size, PROT_READ | PROT_WRITE);
        /* so is the stripe of a check */
        mprotect(stripe.start, stripe.size, PROT_READ);
        CHECK(shelf_check(n, b, stripes[k], length, rooms[k], (size_t)b, summaries[k]) == SHELF_DONE);
        CHECK(*summaries[k] == SHELF_VERDICT_CLEAN);
        mprotect(stripe.start, stripe.size, PROT_READ | PROT_WRITE);
    }
    unfence(stripe);
    unfence(bytes);
    unfence(verdicts);
    unfence(summary);
}

/* The stripe starts at every remainder modulo 64, the new bytes at another, and the verdicts at every even one. */
static void unaligned(uint64_t n, uint64_t b)
{
    size_t length = (size_t)((n + 2) * b), count = (size_t)(b + 1) / 2;
    uint8_t *room = malloc(length + 64), *more = malloc(count + 64);
    uint16_t *found = malloc((size_t)(b + 32) * sizeof *found), summary[3];
    if (!room || !more || !found)
        exit(2);
    for (size_t at = 0; at < 64; at++) {
        memset(room, 0xa5, length + 64);
        uint8_t *bytes = more + (at * 5 + 3) % 64;
        fill(room + at, length, (unsigned)at);
        fill(bytes, count, (unsigned)(at + 100));
        memset(found, 0xa5, (size_t)(b + 32) * sizeof *found);
        memset(summary, 0xa5, sizeof summary);
        calls(n, b, room + at, bytes, count, found + at % 32, summary + 1);
        size_t kept = 0;
        for (size_t i = 0; i < length + 64; i++)
            if (i < at || i >= at + length)
                kept += room[i] == 0xa5;
        for (size_t i = 0; i < b + 32; i++)
            if (i < at % 32 || i >= at % 32 + b)
                kept += found[i] == 0xa5a5;
        CHECK(kept == 64 + 32);
        CHECK(summary[0] == 0xa5a5 && summary[2] == 0xa5a5);
    }
    free(room);
    free(more);
    free(found);
}

static const uint64_t DISKS[] = {1, 2, 3, 4, 8, 255};
static const uint64_t BLOCKS[] = {1, 2, 7, 8, 63, 64, 65, 127, 128, 129, 257, 512, 4095, 4096, 4097, 65535, 65536};

/* Tries the shapes with at most so many bytes of data. */
static void shapes(void (*test)(uint64_t n, uint64_t b), uint64_t most)
{
    for (size_t i = 0; i < sizeof DISKS / sizeof *DISKS; i++)
        for (size_t j = 0; j < sizeof BLOCKS / sizeof *BLOCKS; j++)
            if (DISKS[i] * BLOCKS[j] <= most)
                test(DISKS[i], BLOCKS[j]);
}

static int small;

static void fences(void)
{
    shapes(at_the_fences, small ? 600 : UINT64_MAX);
    /* the largest block in its smallest stripe */
    if (small)
        at_the_fences(1, SHELF_MAX_BLOCK);
}

static void alignments(void)
{
    shapes(unaligned, small ? 130 : 1600);
}

int main(int argc, char **argv)
{
    small = argc > 1 && strcmp(argv[1], "small") == 0;
    page = (size_t)sysconf(_SC_PAGESIZE);
    RUN(fences);
    RUN(alignments);
    return report("buffers");
}
