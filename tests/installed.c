/* A controller's first program, built against an installed copy: encodes a stripe, loses both data disks, rebuilds, has one
   byte spoiled, checks, repairs, and prints the version of its header. */
#include <shelf.h>
#include <stdio.h>
#include <string.h>

int main(void)
{
    const uint8_t encoded[] = {0x01, 0x80, 0x81, 0x1c};
    uint8_t stripe[] = {0x01, 0x80, 0, 0};

    if (shelf_encode(2, 1, stripe, sizeof stripe) != 0 || memcmp(stripe, encoded, sizeof stripe) != 0) {
        puts("encode is wrong");
        return 1;
    }
    memset(stripe, 0, 2);
    if (shelf_rebuild(2, 1, stripe, sizeof stripe, 0, 1) != 0 || memcmp(stripe, encoded, sizeof stripe) != 0) {
        puts("rebuild is wrong");
        return 1;
    }
    uint16_t verdict, summary;
    stripe[1] ^= 0x20;
    if (shelf_check(2, 1, stripe, sizeof stripe, &verdict, 1, &summary) != 0 || verdict != 17 || summary != 17) {
        puts("check is wrong");
        return 1;
    }
    if (shelf_repair(2, 1, stripe, sizeof stripe) != 0 || memcmp(stripe, encoded, sizeof stripe) != 0) {
        puts("repair is wrong");
        return 1;
    }
    char parts[32];
    snprintf(parts, sizeof parts, "%d.%d.%d", SHELF_VERSION_MAJOR, SHELF_VERSION_MINOR, SHELF_VERSION_PATCH);
    if (strcmp(parts, SHELF_VERSION) != 0) {
        puts("the version's parts are others");
        return 1;
    }
    puts(SHELF_VERSION);
    return 0;
}
