/* One 8x8 block of luma, from samples to levels, by both modes: docs/HOSTING.md goes through it line by line.
 *
 *   cc -Ihost/include -o one_block host/examples/one_block.c target/native/libgalemosu.a
 */
#include "galemosu.h"
#include <inttypes.h>
#include <stdio.h>

enum { LOG2 = 3, SIDE = 1 << LOG2 };

/* What an encoder starts from: every context at one half. Later: what the entropy coder's contexts say. */
#define HALF {32721, 32721}
static const galemosu_costs costs = {
    .run = {HALF, HALF, HALF, HALF},
    .level = {HALF, HALF, HALF, HALF},
    .last = {HALF, HALF},
    .cbf_all = HALF, .cbf_luma = HALF, .cbf_cb = HALF, .cbf_cr = HALF,
};

/* Residuals become levels; the result is 0 or a refusal's number. answer: component, count, price. */
static uint32_t coded(int16_t block[SIDE * SIDE], uint32_t mode, uint64_t answer[3])
{
    uint32_t slice_qp = 22, flags = GALEMOSU_INTRA_SLICE | GALEMOSU_INTRA_CODED | mode;
    double lambda = 0.57 * 10.079368399158986; /* 2^((QP - 24) / 3) of QP 34, the slice's 22 and 12 */
    uint32_t refused = galemosu_transform(block, SIDE * SIDE, LOG2, LOG2);
    if (refused)
        return refused; /* the block holds its residuals still */
    /* the block holds coefficients now */
    return galemosu_quantise_y(block, SIDE * SIDE, LOG2, slice_qp + 12, lambda, flags, &costs, answer);
}

/* Camera minus guess: a dark stroke that leans, two samples wide, on grained paper; samples have 10 bits. */
static void residuals(int16_t block[SIDE * SIDE])
{
    for (int i = 0; i < SIDE * SIDE; i++) {
        int from_stroke = i % SIDE - i / SIDE / 4 - 3, grain = i * 10 % 13 - 6, guess = 640;
        int camera = grain + (from_stroke == 0 || from_stroke == 1 ? 150 : 800);
        block[i] = (int16_t)(camera - guess);
    }
}

int main(void)
{
    int16_t block[SIDE * SIDE];
    uint64_t answer[3];
    if (galemosu_version() != GALEMOSU_VERSION) {
        fprintf(stderr, "an archive of version %" PRIu32 ", a header of %d\n", galemosu_version(), GALEMOSU_VERSION);
        return 1;
    }
    for (uint32_t mode = 0; mode <= GALEMOSU_LEAST; mode += GALEMOSU_LEAST) {
        residuals(block);
        uint32_t refused = coded(block, mode, answer);
        if (refused) {
            fprintf(stderr, "refused with %" PRIu32 "\n", refused);
            return 1;
        }
        printf("%s: %" PRIu64 " levels that are not 0, at a price of %" PRIu64 " (%.0f squares)\n",
            mode ? "Least" : "Walk", answer[1], answer[2], (double)answer[2] / (1 << 26));
        for (int i = 0; i < SIDE * SIDE; i++)
            printf("%5d%s", block[i], i % SIDE == SIDE - 1 ? "\n" : "");
    }
    /* what is refused is left as it was */
    block[0] = 1024;
    printf("refused with %" PRIu32 "\n", coded(block, 0, answer));
    return 0;
}
