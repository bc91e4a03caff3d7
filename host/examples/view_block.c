/* One 8x8 block of luma as a viewer shows it, beside what the camera saw: the same as view_block.rs.
 *
 *   cc -Ihost/include -o view_block host/examples/view_block.c target/native/libgalemosu.a
 */
#include "galemosu.h"
#include <inttypes.h>
#include <stdio.h>

enum { LOG2 = 3, SIDE = 1 << LOG2, PLACES = SIDE * SIDE, QP = 22 + 12, GUESS = 640 };

#define HALF {32721, 32721}
static const galemosu_costs costs = {
    .run = {HALF, HALF, HALF, HALF},
    .level = {HALF, HALF, HALF, HALF},
    .last = {HALF, HALF},
    .cbf_all = HALF, .cbf_luma = HALF, .cbf_cb = HALF, .cbf_cr = HALF,
};

/* What the camera saw: a dark stroke that leans, two samples wide, on grained paper; samples have 10 bits. */
static int camera(int i)
{
    int from_stroke = i % SIDE - i / SIDE / 4 - 3, grain = i * 10 % 13 - 6;
    return grain + (from_stroke == 0 || from_stroke == 1 ? 150 : 800);
}

/* The recorder's half: residuals become the levels of the clip. */
static uint32_t recorded(int16_t block[PLACES])
{
    uint64_t answer[3];
    double lambda = 0.57 * 10.079368399158986; /* 2^((QP - 24) / 3) */
    uint32_t refused = galemosu_transform(block, PLACES, LOG2, LOG2);
    return refused ? refused : galemosu_quantise_y(block, PLACES, LOG2, QP, lambda,
        GALEMOSU_INTRA_SLICE | GALEMOSU_INTRA_CODED, &costs, answer);
}

/* The viewer's half: the levels of the clip become residuals. */
static uint32_t decoded(int16_t block[PLACES])
{
    uint32_t refused = galemosu_scale_back(block, PLACES, LOG2, QP);
    return refused ? refused : galemosu_inverse(block, PLACES, LOG2, LOG2);
}

/* A residual and the guess, held to the range of a sample. A viewer's filter comes behind this. */
static int shown(int residual)
{
    int sample = residual + GUESS;
    return sample < 0 ? 0 : sample > 1023 ? 1023 : sample;
}

int main(void)
{
    int16_t block[PLACES];
    int count = 0, largest = 0;
    if (galemosu_version() != GALEMOSU_VERSION)
        return 1;
    for (int i = 0; i < PLACES; i++)
        block[i] = (int16_t)(camera(i) - GUESS);
    uint32_t refused = recorded(block);
    for (int i = 0; i < PLACES; i++)
        count += block[i] != 0;
    if (!refused)
        refused = decoded(block);
    if (refused) {
        fprintf(stderr, "refused with %" PRIu32 "\n", refused);
        return 1;
    }
    printf("%d levels that are not 0; what the camera saw, and what is shown:\n", count);
    for (int row = 0; row < PLACES; row += SIDE) {
        for (int i = row; i < row + SIDE; i++)
            printf("%5d", camera(i));
        printf("   |");
        for (int i = row; i < row + SIDE; i++) {
            int difference = shown(block[i]) - camera(i);
            difference = difference < 0 ? -difference : difference;
            largest = difference > largest ? difference : largest;
            printf("%5d", shown(block[i]));
        }
        printf("\n");
    }
    printf("the largest difference of a sample is %d\n", largest);
    return 0;
}
