/* The 8x8 block of one_block as a list of symbols for the entropy coder, and back: the same as run_list.rs.
 *
 *   cc -Ihost/include -o run_list host/examples/run_list.c target/native/libgalemosu.a
 */
#include "galemosu.h"
#include <inttypes.h>
#include <stdio.h>
#include <string.h>

enum { LOG2 = 3, SIDE = 1 << LOG2, PLACES = SIDE * SIDE };

#define HALF {32721, 32721}
static const galemosu_costs costs = {
    .run = {HALF, HALF, HALF, HALF},
    .level = {HALF, HALF, HALF, HALF},
    .last = {HALF, HALF},
    .cbf_all = HALF, .cbf_luma = HALF, .cbf_cb = HALF, .cbf_cr = HALF,
};

/* The levels of a dark stroke that leans, two samples wide, on grained paper; 0 or a refusal's number. */
static uint32_t coded(int16_t block[PLACES])
{
    double lambda = 0.57 * 10.079368399158986; /* 2^((QP - 24) / 3) of QP 34 */
    uint64_t answer[3];
    for (int i = 0; i < PLACES; i++) {
        int from_stroke = i % SIDE - i / SIDE / 4 - 3, grain = i * 10 % 13 - 6, guess = 640;
        block[i] = (int16_t)(grain + (from_stroke == 0 || from_stroke == 1 ? 150 : 800) - guess);
    }
    uint32_t refused = galemosu_transform(block, PLACES, LOG2, LOG2);
    return refused ? refused : galemosu_quantise_y(block, PLACES, LOG2, 22 + 12, lambda,
        GALEMOSU_INTRA_SLICE | GALEMOSU_INTRA_CODED, &costs, answer);
}

int main(void)
{
    int16_t levels[PLACES], block[PLACES];
    uint32_t list[PLACES]; /* as many places as the block has are always enough */
    uint64_t count[1], none[1];
    if (galemosu_version() != GALEMOSU_VERSION || coded(levels)
        || galemosu_write_symbols(levels, PLACES, LOG2, list, PLACES, count))
        return 1;
    printf("%" PRIu64 " symbols, each so many zeros and a level:\n", count[0]);
    for (uint64_t i = 0; i < count[0]; i++) {
        int magnitude = (int)GALEMOSU_SYMBOL_MAGNITUDE(list[i]), last = GALEMOSU_SYMBOL_LAST(list[i]) != 0;
        printf("%4u:%d%s%s", (unsigned)GALEMOSU_SYMBOL_RUN(list[i]),
            GALEMOSU_SYMBOL_NEGATIVE(list[i]) ? -magnitude : magnitude, last ? " and no more" : "",
            i % 12 == 11 || last ? "\n" : "");
    }
    memset(block, 99, sizeof block); /* whatever it held */
    if (galemosu_read_symbols(list, (size_t)count[0], block, PLACES, LOG2))
        return 1;
    printf("read back, the block is %s\n", memcmp(block, levels, sizeof block) ? "another" : "the same");

    /* a list with a place too few, and a list whose end is lost: what is refused is left as it was */
    uint32_t room[PLACES];
    printf("refused with %" PRIu32 "\n",
        galemosu_write_symbols(levels, PLACES, LOG2, room, (size_t)count[0] - 1, none));
    printf("refused with %" PRIu32 "\n", galemosu_read_symbols(list, (size_t)count[0] - 1, block, PLACES, LOG2));
    return 0;
}
