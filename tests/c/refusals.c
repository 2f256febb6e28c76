/* Each refusal, in its order, at the borders of every number; a refused call changes nothing. */
#include "check.h"
#include "shelf.h"
#include <stdlib.h>
#include <string.h>

/* Numbers that a narrower parameter would cut to a valid one, and the largest. */
static const uint64_t WIDE[] = {65537, 65536 + 256, 131072, 131072 + 2, (1ull << 32) + 1, (1ull << 32) + 256, (1ull << 63) + 1, UINT64_MAX - 1, UINT64_MAX};
#define WIDE_COUNT (sizeof WIDE / sizeof *WIDE)

/* Two data disks with blocks of two bytes, bytes for a write, and room for verdicts and a summary: what the calls below are lent. In both
   columns of this stripe more than one device is wrong, so a repair of it is refused with 9. */
#define N 2
#define B 2
#define LENGTH 8
#define ROOM 3
#define UNTOUCHED 0xa5a5
static uint8_t *stripe, *bytes;
static uint16_t *verdicts, *summary;

static void fill(void)
{
    for (int i = 0; i < LENGTH; i++)
        stripe[i] = (uint8_t)(17 * i + 3);
    for (int i = 0; i < LENGTH; i++)
        bytes[i] = (uint8_t)(29 * i + 1);
    for (int i = 0; i < ROOM; i++)
        verdicts[i] = UNTOUCHED;
    *summary = UNTOUCHED;
}

static int untouched(void)
{
    for (int i = 0; i < LENGTH; i++)
        if (stripe[i] != (uint8_t)(17 * i + 3) || bytes[i] != (uint8_t)(29 * i + 1))
            return 0;
    for (int i = 0; i < ROOM; i++)
        if (verdicts[i] != UNTOUCHED)
            return 0;
    return *summary == UNTOUCHED;
}

#define REFUSED(number, call)        \
    do {                             \
        fill();                      \
        CHECK((call) == (number));   \
        CHECK(untouched());          \
    } while (0)

#define DONE(call)                   \
    do {                             \
        fill();                      \
        CHECK((call) == SHELF_DONE); \
    } while (0)

/* n, b and the length are judged alike by all calls, before their other numbers and the stripe, which are all bad here. */
static void shape(uint8_t number, uint64_t n, uint64_t b, size_t length)
{
    REFUSED(number, shelf_encode(n, b, stripe, length));
    REFUSED(number, shelf_write(n, b, stripe, length, n, b + 1, bytes, LENGTH));
    REFUSED(number, shelf_rebuild(n, b, stripe, length, 258, 258));
    REFUSED(number, shelf_rebuild(n, b, stripe, length, SHELF_P, SHELF_P));
    REFUSED(number, shelf_check(n, b, stripe, length, verdicts, ROOM, summary));
    REFUSED(number, shelf_repair(n, b, stripe, length));
}

static void shapes(void)
{
    shape(SHELF_BAD_DISKS, 0, B, 4);
    shape(SHELF_BAD_DISKS, 0, 0, LENGTH);
    shape(SHELF_BAD_DISKS, 256, 65537, LENGTH);
    shape(SHELF_BAD_BLOCK, N, 0, 0);
    shape(SHELF_BAD_BLOCK, N, 65537, LENGTH);
    shape(SHELF_BAD_BLOCK, 255, 0, LENGTH);
    for (size_t k = 0; k < WIDE_COUNT; k++) {
        shape(SHELF_BAD_DISKS, WIDE[k], B, LENGTH);
        shape(SHELF_BAD_DISKS, WIDE[k], WIDE[k], LENGTH);
        shape(SHELF_BAD_BLOCK, N, WIDE[k], LENGTH);
    }
    for (size_t length = 0; length < LENGTH; length++)
        shape(SHELF_BAD_LENGTH, N, B, length);
    shape(SHELF_BAD_LENGTH, N, 1, LENGTH);
    shape(SHELF_BAD_LENGTH, 1, B, LENGTH);
    shape(SHELF_BAD_LENGTH, N, 4097, LENGTH);
    shape(SHELF_BAD_LENGTH, N, 65536, LENGTH);
    shape(SHELF_BAD_LENGTH, 255, 65536, LENGTH);
    /* numbers whose (n + 2) * b comes out as the length in 64 bits */
    shape(SHELF_BAD_DISKS, UINT64_MAX - 1, 1, 0);
    shape(SHELF_BAD_DISKS, (1ull << 63) + 2, 2, LENGTH);
    shape(SHELF_BAD_BLOCK, N, (1ull << 62) + 2, LENGTH);
}

static void stretches(void)
{
    REFUSED(SHELF_BAD_DEVICE, shelf_write(N, B, stripe, LENGTH, N, 0, bytes, 1));
    REFUSED(SHELF_BAD_DEVICE, shelf_write(N, B, stripe, LENGTH, N, B + 1, bytes, 1));
    REFUSED(SHELF_BAD_DEVICE, shelf_write(N, B, stripe, LENGTH, SHELF_P, 0, bytes, 1));
    REFUSED(SHELF_BAD_STRETCH, shelf_write(N, B, stripe, LENGTH, 0, B + 1, bytes, 1));
    REFUSED(SHELF_BAD_STRETCH, shelf_write(N, B, stripe, LENGTH, 1, 0, bytes, B + 1));
    REFUSED(SHELF_BAD_STRETCH, shelf_write(N, B, stripe, LENGTH, 1, 1, bytes, B));
    REFUSED(SHELF_BAD_STRETCH, shelf_write(N, B, stripe, LENGTH, 1, B, bytes, 1));
    for (size_t k = 0; k < WIDE_COUNT; k++) {
        REFUSED(SHELF_BAD_DEVICE, shelf_write(N, B, stripe, LENGTH, WIDE[k], 0, bytes, 1));
        REFUSED(SHELF_BAD_STRETCH, shelf_write(N, B, stripe, LENGTH, 0, WIDE[k], bytes, 1));
        REFUSED(SHELF_BAD_STRETCH, shelf_write(N, B, stripe, LENGTH, 0, WIDE[k], bytes, 2));
    }
    for (uint64_t offset = 0; offset < B; offset++)
        DONE(shelf_write(N, B, stripe, LENGTH, 1, offset, bytes, B - offset));
}

/* No new bytes, with a pointer and without: an unknown disk comes first, and no offset makes it a write. */
static void empty_writes(void)
{
    const uint64_t offsets[] = {0, 1, B, B + 1, UINT64_MAX};
    for (size_t k = 0; k < sizeof offsets / sizeof *offsets; k++) {
        const uint8_t *sources[] = {bytes, NULL};
        for (int j = 0; j < 2; j++) {
            REFUSED(SHELF_BAD_STRETCH, shelf_write(N, B, stripe, LENGTH, 0, offsets[k], sources[j], 0));
            REFUSED(SHELF_BAD_STRETCH, shelf_write(N, B, stripe, LENGTH, N - 1, offsets[k], sources[j], 0));
            REFUSED(SHELF_BAD_DEVICE, shelf_write(N, B, stripe, LENGTH, N, offsets[k], sources[j], 0));
            REFUSED(SHELF_BAD_DEVICE, shelf_write(N, B, stripe, LENGTH, SHELF_P, offsets[k], sources[j], 0));
            REFUSED(SHELF_BAD_LENGTH, shelf_write(N, B, stripe, LENGTH - 1, 0, offsets[k], sources[j], 0));
        }
    }
}

static void devices(void)
{
    const uint64_t none[] = {N, 254, 255, 258, 65534, 65536, 65537, 65536 + 256, 65536 + 257, (1ull << 32) + 1, (1ull << 32) + 256, UINT64_MAX};
    const uint64_t some[] = {0, 1, SHELF_P, SHELF_Q};
    for (size_t k = 0; k < sizeof none / sizeof *none; k++) {
        REFUSED(SHELF_BAD_DEVICE, shelf_rebuild(N, B, stripe, LENGTH, none[k], none[k]));
        REFUSED(SHELF_BAD_DEVICE, shelf_rebuild(N, B, stripe, LENGTH, none[k], SHELF_NONE));
        REFUSED(SHELF_BAD_DEVICE, shelf_rebuild(N, B, stripe, LENGTH, SHELF_NONE, none[k]));
        for (size_t j = 0; j < 4; j++) {
            REFUSED(SHELF_BAD_DEVICE, shelf_rebuild(N, B, stripe, LENGTH, none[k], some[j]));
            REFUSED(SHELF_BAD_DEVICE, shelf_rebuild(N, B, stripe, LENGTH, some[j], none[k]));
        }
    }
    REFUSED(SHELF_BAD_DEVICE, shelf_rebuild(N, B, stripe, LENGTH, SHELF_NONE, SHELF_NONE));
    for (size_t j = 0; j < 4; j++) {
        REFUSED(SHELF_BAD_DEVICE, shelf_rebuild(N, B, stripe, LENGTH, SHELF_NONE, some[j]));
        REFUSED(SHELF_SAME_DEVICE, shelf_rebuild(N, B, stripe, LENGTH, some[j], some[j]));
        DONE(shelf_rebuild(N, B, stripe, LENGTH, some[j], SHELF_NONE));
    }
}

static void rooms(void)
{
    REFUSED(SHELF_BAD_ROOM, shelf_check(N, B, stripe, LENGTH, verdicts, B - 1, summary));
    REFUSED(SHELF_BAD_ROOM, shelf_check(N, B, stripe, LENGTH, verdicts, B + 1, summary));
    REFUSED(SHELF_BAD_ROOM, shelf_check(N, B, stripe, LENGTH, verdicts, 0, summary));
    REFUSED(SHELF_BAD_ROOM, shelf_check(N, B, stripe, LENGTH, NULL, 0, summary));
    DONE(shelf_check(N, B, stripe, LENGTH, verdicts, B, summary));
    CHECK(*summary == SHELF_VERDICT_UNKNOWN);
    CHECK(verdicts[0] == SHELF_VERDICT_UNKNOWN && verdicts[1] == SHELF_VERDICT_UNKNOWN && verdicts[2] == UNTOUCHED);
}

/* The one refusal that depends on the bytes: with summary 3 and with summary 4. */
static void unclear(void)
{
    uint8_t mixed[LENGTH], before[LENGTH];
    REFUSED(SHELF_UNCLEAR, shelf_repair(N, B, stripe, LENGTH));
    for (int p = 0; p < LENGTH; p++) {
        for (int q = 0; q < LENGTH; q++) {
            if (p % B == q % B || p / B == q / B)
                continue;
            fill();
            CHECK(shelf_encode(N, B, stripe, LENGTH) == SHELF_DONE);
            memcpy(mixed, stripe, LENGTH);
            mixed[p] ^= 0x21;
            mixed[q] ^= 0x21;
            memcpy(before, mixed, LENGTH);
            CHECK(shelf_check(N, B, mixed, LENGTH, verdicts, B, summary) == SHELF_DONE);
            CHECK(*summary == SHELF_SUMMARY_MIXED);
            CHECK(shelf_repair(N, B, mixed, LENGTH) == SHELF_UNCLEAR);
            CHECK(memcmp(mixed, before, LENGTH) == 0);
            /* the same bytes in another shape meet the tests before it */
            CHECK(shelf_repair(N, B, mixed, LENGTH - 1) == SHELF_BAD_LENGTH);
            CHECK(shelf_repair(N, 0, mixed, LENGTH) == SHELF_BAD_BLOCK);
            CHECK(shelf_repair(0, B, mixed, LENGTH) == SHELF_BAD_DISKS);
            CHECK(memcmp(mixed, before, LENGTH) == 0);
        }
    }
}

/* The codes near the border of the data disks, where all 255 are there and where one is missing. */
static void widest_stripe(void)
{
    uint8_t widest[257] = {0};
    CHECK(shelf_rebuild(255, 1, widest, 257, 254, SHELF_NONE) == SHELF_DONE);
    CHECK(shelf_rebuild(255, 1, widest, 257, 254, SHELF_Q) == SHELF_DONE);
    CHECK(shelf_rebuild(255, 1, widest, 257, 255, SHELF_NONE) == SHELF_BAD_DEVICE);
    CHECK(shelf_rebuild(255, 1, widest, 257, 0, 255) == SHELF_BAD_DEVICE);
    CHECK(shelf_rebuild(254, 1, widest, 256, 253, SHELF_NONE) == SHELF_DONE);
    CHECK(shelf_rebuild(254, 1, widest, 256, 254, SHELF_NONE) == SHELF_BAD_DEVICE);
    CHECK(shelf_write(255, 1, widest, 257, 254, 0, bytes, 1) == SHELF_DONE);
    CHECK(shelf_write(255, 1, widest, 257, 255, 0, bytes, 1) == SHELF_BAD_DEVICE);

    /* its last disk's verdict is above what eight bits hold */
    memset(widest, 0, sizeof widest);
    widest[254] = 1;
    CHECK(shelf_check(255, 1, widest, 257, verdicts, 1, summary) == SHELF_DONE);
    CHECK(*verdicts == SHELF_VERDICT_DATA + 254 && *summary == SHELF_VERDICT_DATA + 254);
    CHECK(shelf_repair(255, 1, widest, 257) == SHELF_DONE);
    CHECK(widest[254] == 0);
    CHECK(shelf_check(256, 1, widest, 257, verdicts, 1, summary) == SHELF_BAD_DISKS);
    CHECK(shelf_repair(256, 1, widest, 257) == SHELF_BAD_DISKS);
}

/* The header's limits are the last numbers that are taken. */
static void limits(void)
{
    static uint8_t room[3 * (SHELF_MAX_BLOCK + 1)], before[sizeof room];
    static uint16_t found[SHELF_MAX_BLOCK + 1];
    const uint64_t most = SHELF_MAX_BLOCK, above = most + 1;
    CHECK(SHELF_MAX_DISKS == 255 && SHELF_MAX_BLOCK == 65536);
    CHECK(shelf_encode(SHELF_MAX_DISKS, 1, room, SHELF_MAX_DISKS + 2) == SHELF_DONE);
    CHECK(shelf_encode(SHELF_MAX_DISKS + 1, 1, room, SHELF_MAX_DISKS + 3) == SHELF_BAD_DISKS);

    for (size_t i = 0; i < sizeof room; i++)
        before[i] = room[i] = (uint8_t)(17 * i + i / 251);
    CHECK(shelf_encode(1, above, room, 3 * above) == SHELF_BAD_BLOCK);
    CHECK(shelf_write(1, above, room, 3 * above, 0, most, bytes, 1) == SHELF_BAD_BLOCK);
    CHECK(shelf_rebuild(1, above, room, 3 * above, 0, SHELF_Q) == SHELF_BAD_BLOCK);
    CHECK(shelf_check(1, above, room, 3 * above, found, above, summary) == SHELF_BAD_BLOCK);
    CHECK(shelf_repair(1, above, room, 3 * above) == SHELF_BAD_BLOCK);
    CHECK(memcmp(room, before, sizeof room) == 0);

    CHECK(shelf_write(1, most, room, 3 * most, 0, most - 1, bytes, 2) == SHELF_BAD_STRETCH);
    CHECK(shelf_write(1, most, room, 3 * most, 0, most, bytes, 1) == SHELF_BAD_STRETCH);
    CHECK(shelf_write(1, most, room, 3 * most, 0, above, bytes, 1) == SHELF_BAD_STRETCH);
    CHECK(shelf_write(1, most, room, 3 * most, 0, most - 1, bytes, 0) == SHELF_BAD_STRETCH);
    CHECK(shelf_write(1, most, room, 3 * most, 0, most, bytes, 0) == SHELF_BAD_STRETCH);
    CHECK(shelf_check(1, most, room, 3 * most, found, above, summary) == SHELF_BAD_ROOM);
    CHECK(shelf_repair(1, most, room, 3 * most) == SHELF_UNCLEAR);
    CHECK(memcmp(room, before, sizeof room) == 0);

    CHECK(shelf_encode(1, most, room, 3 * most) == SHELF_DONE);
    CHECK(memcmp(room, before, most) == 0 && memcmp(room, room + most, most) == 0 && memcmp(room, room + 2 * most, most) == 0);
    CHECK(shelf_write(1, most, room, 3 * most, 0, most - 1, bytes, 1) == SHELF_DONE);
    CHECK(room[most - 1] == bytes[0] && room[2 * most - 1] == bytes[0] && room[3 * most - 1] == bytes[0]);

    CHECK(shelf_check(1, most, room, 3 * most, found, most, summary) == SHELF_DONE);
    CHECK(*summary == SHELF_VERDICT_CLEAN);
    memcpy(before, room, sizeof room);
    room[most - 1] ^= 1;
    found[most] = UNTOUCHED;
    CHECK(shelf_check(1, most, room, 3 * most, found, most, summary) == SHELF_DONE);
    CHECK(*summary == SHELF_VERDICT_DATA && found[0] == SHELF_VERDICT_CLEAN);
    CHECK(found[most - 1] == SHELF_VERDICT_DATA && found[most] == UNTOUCHED);
    CHECK(shelf_repair(1, most, room, 3 * most) == SHELF_DONE);
    CHECK(memcmp(room, before, sizeof room) == 0);
}

static void no_buffer(void)
{
    CHECK(shelf_encode(0, 0, NULL, 0) == SHELF_BAD_DISKS);
    CHECK(shelf_encode(N, 0, NULL, 0) == SHELF_BAD_BLOCK);
    CHECK(shelf_encode(N, B, NULL, 0) == SHELF_BAD_LENGTH);
    CHECK(shelf_write(N, B, NULL, 0, 0, 0, NULL, 0) == SHELF_BAD_LENGTH);
    CHECK(shelf_rebuild(N, B, NULL, 0, 0, SHELF_NONE) == SHELF_BAD_LENGTH);
    fill();
    CHECK(shelf_check(0, 0, NULL, 0, NULL, 0, summary) == SHELF_BAD_DISKS);
    CHECK(shelf_check(N, 0, NULL, 0, NULL, 0, summary) == SHELF_BAD_BLOCK);
    CHECK(shelf_check(N, B, NULL, 0, NULL, 0, summary) == SHELF_BAD_LENGTH);
    CHECK(untouched());
    CHECK(shelf_repair(0, 0, NULL, 0) == SHELF_BAD_DISKS);
    CHECK(shelf_repair(N, 0, NULL, 0) == SHELF_BAD_BLOCK);
    CHECK(shelf_repair(N, B, NULL, 0) == SHELF_BAD_LENGTH);
}

int main(void)
{
    stripe = malloc(LENGTH);
    bytes = malloc(LENGTH);
    verdicts = malloc(ROOM * sizeof *verdicts);
    summary = malloc(sizeof *summary);
    if (!stripe || !bytes || !verdicts || !summary)
        return 2;
    RUN(shapes);
    RUN(stretches);
    RUN(empty_writes);
    RUN(devices);
    RUN(rooms);
    RUN(unclear);
    RUN(widest_stripe);
    RUN(limits);
    RUN(no_buffer);
    free(stripe);
    free(bytes);
    free(verdicts);
    free(summary);
    return report("refusals");
}
