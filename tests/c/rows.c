/* What each call does, on the worked figures: encode, write, each row of the rebuild table, the check and the repair. */
#include "check.h"
#include "shelf.h"
#include <string.h>

/* Columns of n data disks are written out as blocks of one byte. */
static int same(const uint8_t *stripe, const char *expected, size_t length)
{
    return memcmp(stripe, expected, length) == 0;
}

static void encode_and_write(void)
{
    uint8_t one[3] = {0x5a, 0xee, 0xee};
    CHECK(shelf_encode(1, 1, one, 3) == SHELF_DONE);
    CHECK(same(one, "\x5a\x5a\x5a", 3));

    uint8_t two[4] = {0x01, 0x80, 0xee, 0xee};
    CHECK(shelf_encode(2, 1, two, 4) == SHELF_DONE);
    CHECK(same(two, "\x01\x80\x81\x1c", 4));

    uint8_t three[5] = {1, 2, 4, 0xee, 0xee};
    uint8_t new_byte = 0x80;
    CHECK(shelf_encode(3, 1, three, 5) == SHELF_DONE);
    CHECK(same(three, "\x01\x02\x04\x07\x15", 5));
    CHECK(shelf_write(3, 1, three, 5, 1, 0, &new_byte, 1) == SHELF_DONE);
    CHECK(same(three, "\x01\x80\x04\x85\x0c", 5));

    uint8_t all[257];
    memset(all, 1, sizeof all);
    CHECK(shelf_encode(255, 1, all, 257) == SHELF_DONE);
    CHECK(same(all + 255, "\x01\x00", 2));
    memset(all, 0, sizeof all);
    all[254] = 1;
    CHECK(shelf_encode(255, 1, all, 257) == SHELF_DONE);
    CHECK(same(all + 255, "\x01\x8e", 2));
}

/* A stripe that is not encoded: a write adds the change to what stands there. */
static void write_where_nothing_is_encoded(void)
{
    uint8_t stripe[12] = {1, 2, 3, 4, 5, 6, 0x10, 0x20, 0x30, 0x40, 0x50, 0x60};
    const uint8_t bytes[2] = {0x85, 0x07};
    CHECK(shelf_write(2, 3, stripe, 12, 1, 0, bytes, 2) == SHELF_DONE);
    /* the changes are 81 and 02, times 02 they are 1f and 04 */
    CHECK(same(stripe, "\x01\x02\x03\x85\x07\x06\x91\x22\x30\x5f\x54\x60", 12));
    CHECK(shelf_write(2, 3, stripe, 12, 0, 2, bytes, 1) == SHELF_DONE);
    CHECK(same(stripe, "\x01\x02\x85\x85\x07\x06\x91\x22\xb6\x5f\x54\xe6", 12));
}

/* Loses the named devices of a stripe and expects the bytes given, under both orders of the names. */
static void row(uint64_t first, uint64_t second, const char *before, const char *after)
{
    for (int turn = 0; turn < 2; turn++) {
        for (unsigned trash = 0; trash < 256; trash += 85) {
            uint8_t stripe[5];
            memcpy(stripe, before, 5);
            uint64_t names[2] = {first, second};
            for (int k = 0; k < 2; k++) {
                if (names[k] != SHELF_NONE)
                    stripe[names[k] < 3 ? names[k] : names[k] - SHELF_P + 3] = (uint8_t)trash;
            }
            CHECK(shelf_rebuild(3, 1, stripe, 5, names[turn], names[1 - turn]) == SHELF_DONE);
            CHECK(same(stripe, after, 5));
        }
        if (second == SHELF_NONE)
            return;
    }
}

static void rows(void)
{
    const char *encoded = "\x01\x02\x04\x07\x15";
    for (uint64_t first = 0; first < 5; first++) {
        uint64_t code = first < 3 ? first : SHELF_P + first - 3;
        row(code, SHELF_NONE, encoded, encoded);
        for (uint64_t second = first + 1; second < 5; second++)
            row(code, second < 3 ? second : SHELF_P + second - 3, encoded, encoded);
    }

    /* Where the parities are not those of the data, the row shows which equation it uses. */
    const char *odd = "\x01\x02\x04\x17\x25";
    row(0, SHELF_NONE, odd, "\x11\x02\x04\x17\x25");
    row(1, SHELF_NONE, odd, "\x01\x12\x04\x17\x25");
    row(SHELF_P, SHELF_NONE, odd, "\x01\x02\x04\x07\x25");
    row(SHELF_Q, SHELF_NONE, odd, "\x01\x02\x04\x17\x15");
    row(0, SHELF_P, odd, "\x31\x02\x04\x37\x25");
    row(0, SHELF_Q, odd, "\x11\x02\x04\x17\x05");
    row(SHELF_P, SHELF_Q, odd, encoded);
}

static void worked_exchange(void)
{
    uint8_t stripe[4] = {0x00, 0x00, 0x81, 0x1c};
    CHECK(shelf_rebuild(2, 1, stripe, 4, 0, 1) == SHELF_DONE);
    CHECK(same(stripe, "\x01\x80\x81\x1c", 4));
}

/* Expects the verdict on a stripe of one column, and what a repair of it answers and leaves. */
static void judged(uint8_t *stripe, uint16_t verdict, uint8_t result, const char *after)
{
    uint16_t found = 0xa5a5, summary = 0xa5a5;
    CHECK(shelf_check(3, 1, stripe, 5, &found, 1, &summary) == SHELF_DONE);
    CHECK(found == verdict && summary == verdict);
    CHECK(shelf_repair(3, 1, stripe, 5) == result);
    CHECK(same(stripe, after, 5));
}

static void check_and_repair(void)
{
    const char *encoded = "\x01\x02\x04\x07\x15";
    const uint16_t names[5] = {SHELF_VERDICT_DATA, SHELF_VERDICT_DATA + 1, SHELF_VERDICT_DATA + 2, SHELF_VERDICT_P, SHELF_VERDICT_Q};
    for (size_t device = 0; device < 5; device++) {
        for (unsigned change = 0; change < 256; change++) {
            uint8_t stripe[5];
            memcpy(stripe, encoded, 5);
            stripe[device] ^= (uint8_t)change;
            judged(stripe, change ? names[device] : SHELF_VERDICT_CLEAN, SHELF_DONE, encoded);
        }
    }

    /* two disks, of which no third one can be thought to be wrong: it would be disk 3 */
    uint8_t unknown[5] = {0x01, 0x02, 0x04, 0x06, 0x1d};
    judged(unknown, SHELF_VERDICT_UNKNOWN, SHELF_UNCLEAR, "\x01\x02\x04\x06\x1d");
    /* two disks that look like Q: the stripe is encoded afterwards, and another one */
    uint8_t mistaken[5] = {0x00, 0x03, 0x04, 0x07, 0x15};
    judged(mistaken, SHELF_VERDICT_Q, SHELF_DONE, "\x00\x03\x04\x07\x16");
}

/* One device in some columns: the others stay, and one more in another column is too much. */
static void repair_of_columns(void)
{
    const char *encoded = "\x01\x02\x03\x04\x05\x06\x05\x07\x05\x09\x08\x0f";
    uint8_t stripe[12];
    uint16_t verdicts[3], summary;
    memcpy(stripe, encoded, 12);
    CHECK(shelf_check(2, 3, stripe, 12, verdicts, 3, &summary) == SHELF_DONE);
    CHECK(summary == SHELF_VERDICT_CLEAN && verdicts[0] == 0 && verdicts[1] == 0 && verdicts[2] == 0);
    stripe[3] ^= 0x80;
    stripe[5] ^= 0x01;
    CHECK(shelf_check(2, 3, stripe, 12, verdicts, 3, &summary) == SHELF_DONE);
    CHECK(summary == 17 && verdicts[0] == 17 && verdicts[1] == 0 && verdicts[2] == 17);
    CHECK(shelf_repair(2, 3, stripe, 12) == SHELF_DONE);
    CHECK(same(stripe, encoded, 12));

    stripe[3] ^= 0x80;
    stripe[7] ^= 0x01;
    CHECK(shelf_check(2, 3, stripe, 12, verdicts, 3, &summary) == SHELF_DONE);
    CHECK(summary == SHELF_SUMMARY_MIXED && verdicts[0] == 17 && verdicts[1] == SHELF_VERDICT_P && verdicts[2] == 0);
    CHECK(shelf_repair(2, 3, stripe, 12) == SHELF_UNCLEAR);
    CHECK(same(stripe, "\x01\x02\x03\x84\x05\x06\x05\x06\x05\x09\x08\x0f", 12));
}

int main(void)
{
    RUN(encode_and_write);
    RUN(write_where_nothing_is_encoded);
    RUN(rows);
    RUN(worked_exchange);
    RUN(check_and_repair);
    RUN(repair_of_columns);
    return report("rows");
}
