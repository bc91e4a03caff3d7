/* An 8x8 block of luma that the recorder would soften, held to heights: the same as guarded_block.rs.
 *
 *   cc -Ihost/include -o guarded_block host/examples/guarded_block.c target/native/libgalemosu.a
 */
#include "galemosu.h"
#include <inttypes.h>
#include <stdio.h>

enum { LOG2 = 3, SIDE = 1 << LOG2, PLACES = SIDE * SIDE };

#define HALF {32721, 32721}
static const galemosu_costs costs = {
    .run = {HALF, HALF, HALF, HALF},
    .level = {HALF, HALF, HALF, HALF},
    .last = {HALF, HALF},
    .cbf_all = HALF, .cbf_luma = HALF, .cbf_cb = HALF, .cbf_cr = HALF,
};

/* Camera minus guess: the guess has a dark stroke that the camera doesn't see, two samples wide and four high. */
static int16_t residual(int i)
{
    int x = i % SIDE, y = i / SIDE;
    return i < PLACES && x >= 3 && x < 5 && y >= 2 && y < 6 ? 240 : 0;
}

/* Whether the block was coded, or can't be held to the height. */
static int held(uint32_t height)
{
    int16_t buffer[PLACES / 2 * 3]; /* luma, and room for chroma, which is not run here */
    uint32_t qp[3] = {46, 46, 46}, heights[6];
    double most = 10.0 * (0.57 * 1.2599210498948732 * 128.0); /* 2^((QP - 24) / 3) */
    double lambda[3] = {most, most, most};
    uint64_t answer[13];
    for (int i = 0; i < PLACES / 2 * 3; i++)
        buffer[i] = residual(i);
    for (int i = 0; i < 6; i++)
        heights[i] = height;
    uint32_t refused = galemosu_guarded_sub_block(buffer, PLACES / 2 * 3, LOG2, qp, lambda, GALEMOSU_RUN_Y,
        GALEMOSU_INTRA_SLICE | GALEMOSU_INTRA_CODED, &costs, heights, answer);
    if (!refused)
        printf("%" PRIu64 " levels that are not 0; no sample is shown more than %" PRIu64 " darker or %" PRIu64
               " lighter than the camera saw it\n", answer[1], answer[7], answer[10]);
    else
        printf("refused with %" PRIu32 " in %c\n", refused, "YUV"[answer[0]]);
    return !refused || refused == GALEMOSU_HEIGHT;
}

int main(void)
{
    if (galemosu_version() != GALEMOSU_VERSION)
        return 1;
    /* 33791: as the unguarded call codes it; the guess's stroke is left in the clip. 4 can't be had at this QP. */
    return !(held(33791) && held(128) && held(64) && held(4));
}
