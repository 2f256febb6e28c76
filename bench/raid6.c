/* What Linux's lib/raid6 leaves undefined in user space, and its rebuild of two data disks for the bench. */
#include <linux/raid/pq.h>

struct raid6_calls raid6_call;

/* It stands for a lost block, so that a block is at most a page. */
const char raid6_empty_zero_page[PAGE_SIZE] __attribute__((aligned(4096)));

/* Data disks x < y of so many blocks of at most PAGE_SIZE bytes, P and Q the last. The table of the blocks changes during the call. */
#define DATA2(level, syndrome) \
    void data2_##level(int disks, size_t bytes, int x, int y, void **blocks) \
    { \
        raid6_call = syndrome; \
        raid6_recov_##level.data2(disks, bytes, x, y, blocks); \
    }

DATA2(ssse3, raid6_sse2x4)
DATA2(avx2, raid6_avx2x4)
DATA2(avx512, raid6_avx512x4)
