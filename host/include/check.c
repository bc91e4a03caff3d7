/* Calls every function of galemosu.h: document 01's P1 and P5, a block on which the two modes differ, a refusal of
 * each kind of call, flags and run bits that mean nothing, each pair of the costs by its name, the way back of a
 * block, a block held to heights, and a block as a list of symbols and back. Status 0 if all is as it must be. */
#include "galemosu.h"
#include <string.h>

static galemosu_costs costs;

static void all_costs(uint64_t entry)
{
    uint64_t all[28];
    for (int i = 0; i < 28; i++)
        all[i] = entry;
    memcpy(&costs, all, sizeof costs);
}

static int transform_is_right(void)
{
    int16_t block[] = {1, 2, 3, 4, 99}, right[] = {80, -16, -32, 0, 99};
    return galemosu_transform(block, 5, 1, 1) == GALEMOSU_ACCEPTED && !memcmp(block, right, sizeof block)
        && galemosu_transform(block, 3, 1, 1) == GALEMOSU_LENGTH && galemosu_transform(block, 5, 0, 1) == GALEMOSU_SIDE;
}

enum { INTRA = GALEMOSU_INTRA_SLICE | GALEMOSU_INTRA_CODED };

static int quantise_is_right(void)
{
    int16_t block[] = {20, 7, 0, 0}, right[] = {1, 0, 0, 0};
    uint64_t answer[3] = {5, 5, 5};
    if (galemosu_quantise_y(block, 4, 1, 4, 1.0 / 1024.0, INTRA, &costs, answer) != GALEMOSU_ACCEPTED
        || memcmp(block, right, sizeof block))
        return 0;
    if (answer[0] != 0 || answer[1] != 1 || answer[2] != 22282240)
        return 0;
    return galemosu_quantise_u(block, 4, 1, 64, 1.0, INTRA, &costs, answer) == GALEMOSU_QP
        && answer[0] == 1 && answer[2] == 0
        && galemosu_quantise_v(block, 4, 1, 63, -1.0, INTRA, &costs, answer) == GALEMOSU_LAMBDA && answer[0] == 2;
}

/* 24 costs as much as 1 and as 2 at lambda 0: the walk takes 2, the second mode 1. Bits 4 to 31 mean nothing. */
static int modes_are_right(void)
{
    for (uint32_t more = 0; more < 2; more++) {
        int16_t block[] = {-24, 0, 0, 0}, right[] = {-1, 0, 0, 0};
        uint64_t answer[3] = {5, 5, 5};
        uint32_t walk = INTRA | (more ? 0xfffffff0u : 0), least = walk | GALEMOSU_LEAST;
        if (galemosu_quantise_y(block, 4, 1, 4, 0.0, least, &costs, answer) != GALEMOSU_ACCEPTED
            || memcmp(block, right, sizeof block))
            return 0;
        if (answer[0] != 0 || answer[1] != 1 || answer[2] != 16777216)
            return 0;
        block[0] = -24;
        if (galemosu_quantise_y(block, 4, 1, 4, 0.0, walk, &costs, answer) != GALEMOSU_ACCEPTED
            || block[0] != -2 || answer[2] != 16777216)
            return 0;
        if (galemosu_quantise_u(block, 4, 1, 64, 1.0, least, &costs, answer) != GALEMOSU_QP || answer[0] != 1
            || galemosu_quantise_v(block, 4, 1, 63, -1.0, least, &costs, answer) != GALEMOSU_LAMBDA || answer[0] != 2)
            return 0;
    }
    return 1;
}

/* 9 alone is skipped in an intra slice, and 10 is not; elsewhere 11 is, and 12 is not. Where all but an empty block's
 * flag is free, a block that is weighed is coded; a skipped one answers count 0 and the price of an empty block, by the
 * flag of whichever way the block itself is coded. */
static int skip_is_right(void)
{
    static const struct { int16_t coefficient; uint32_t flags; uint64_t price; } rows[] = {
        {9, 1, 21266432}, {9, 3, 54788096}, {10, 1, 0}, {10, 3, 0},
        {11, 0, 31752192}, {11, 2, 65273856}, {12, 0, 0}, {12, 2, 0},
    };
    galemosu_costs dear = {0};
    dear.cbf_all[0] = 1024;
    dear.cbf_luma[0] = 1048576;
    for (unsigned i = 0; i < sizeof rows / sizeof *rows; i++) {
        int16_t block[] = {rows[i].coefficient, 0, 0, 0};
        uint64_t answer[3];
        if (galemosu_quantise_y(block, 4, 1, 4, 1.0 / 1024.0, rows[i].flags, &dear, answer) != GALEMOSU_ACCEPTED)
            return 0;
        if (rows[i].price ? answer[1] != 0 || answer[2] != rows[i].price || block[0] != 0 : answer[1] != 1)
            return 0;
    }
    return 1;
}

typedef uint32_t quantise(int16_t *, size_t, size_t, uint32_t, double, uint32_t, const galemosu_costs *, uint64_t *);

/* What a block costs that becomes 3 0 -2 1 0 .. in scan order, its three signs taken off, with all entries 0 but one
 * pair; lambda's whole number is 1, and the coefficients are whole steps, so that no squared error is in it. */
static uint64_t bits(quantise *call, uint32_t flags, uint64_t *pair, uint64_t zero, uint64_t one)
{
    int16_t block[16] = {24, 0, 0, 0, -16, 0, 0, 0, 8};
    uint64_t answer[3];
    all_costs(0);
    pair[0] = zero, pair[1] = one;
    if (call(block, 16, 2, 4, 1.0 / 32768.0, flags, &costs, answer) != GALEMOSU_ACCEPTED || block[0] != 3
        || block[4] != -2 || block[8] != 1 || answer[1] != 3)
        return 0;
    return answer[2] - 3 * 32768;
}

/* 3: run 0, level 1, one step, the end. 0: run 1. -2: after a zero, run 0, level 1, the end. 1: run 0, level 0. */
static int costs_are_right(void)
{
    quantise *calls[] = {galemosu_quantise_y, galemosu_quantise_u, galemosu_quantise_v};
    for (int k = 0; k < 3; k++)
        for (uint32_t flags = 0; flags < 8; flags++) {
            int j = k ? 2 : 0;
            uint64_t *cbf = k == 2 ? costs.cbf_cr : k == 1 ? costs.cbf_cb : flags & 2 ? costs.cbf_luma : costs.cbf_all;
            if (bits(calls[k], flags, costs.run[j], 100, 1) != 2 * 100 + 1
                || bits(calls[k], flags, costs.run[j + 1], 100, 1) != 100
                || bits(calls[k], flags, costs.level[j], 100, 1) != 100 + 2 * 1
                || bits(calls[k], flags, costs.level[j + 1], 100, 1) != 2 * 100 + 1
                || bits(calls[k], flags, costs.last[k != 0], 100, 1) != 2 * 100 + 1
                || bits(calls[k], flags, cbf, 100, 1) != 1)
                return 0;
        }
    all_costs(32768);
    return 1;
}

static int sub_block_is_right(uint32_t flags)
{
    int16_t buffer[24] = {0}, held[24];
    uint32_t qp[3] = {4, 4, 4}, not_v[3] = {4, 4, 99};
    double lambda[3] = {0.5, 0.5, 0.5};
    uint64_t answer[7];
    buffer[0] = 900;
    buffer[23] = 1024;
    memcpy(held, buffer, sizeof held);
    if (galemosu_sub_block(buffer, 24, 2, qp, lambda, 7, flags, &costs, answer) != GALEMOSU_SAMPLE || answer[0] != 2
        || memcmp(buffer, held, sizeof held))
        return 0;
    if (galemosu_sub_block(buffer, 23, 2, qp, lambda, 0, flags, &costs, answer) != GALEMOSU_LENGTH || answer[0] != 0)
        return 0;
    /* V is not run: its QP and its residual are not looked at */
    return galemosu_sub_block(buffer, 24, 2, not_v, lambda, GALEMOSU_RUN_Y | GALEMOSU_RUN_U | 0xfffffff8u, flags,
               &costs, answer) == GALEMOSU_ACCEPTED
        && answer[1] > 0 && answer[3] == 0 && answer[6] == 0 && buffer[23] == 1024;
}

/* At QP 34 a step of side 2 is 512. At QP 63 a level of 1 is 14592, and a large one is clipped. Of several faults the
 * first is told, and the levels are left. */
static int scale_back_is_right(void)
{
    int16_t block[] = {3, -1, 4, 1, 99}, right[] = {1536, -512, 2048, 512, 99};
    int16_t far[] = {32767, -32768, 1, 0}, clipped[] = {32767, -32768, 14592, 0}, held[sizeof far / sizeof *far];
    if (galemosu_scale_back(block, 5, 1, 34) != GALEMOSU_ACCEPTED || memcmp(block, right, sizeof block))
        return 0;
    memcpy(held, far, sizeof far);
    if (galemosu_scale_back(far, 3, 0, 64) != GALEMOSU_SIDE || galemosu_scale_back(far, 3, 6, 64) != GALEMOSU_SIDE
        || galemosu_scale_back(far, 3, 1, 64) != GALEMOSU_QP || galemosu_scale_back(far, 3, 1, 63) != GALEMOSU_LENGTH
        || memcmp(far, held, sizeof far))
        return 0;
    return galemosu_scale_back(far, 4, 1, 63) == GALEMOSU_ACCEPTED && !memcmp(far, clipped, sizeof far);
}

/* P1 and back; a coefficient that stands for a change along the row, 4 wide and 2 high; the lowest coefficients. */
static int inverse_is_right(void)
{
    int16_t block[] = {80, -16, -32, 0, 99}, right[] = {1, 2, 3, 4, 99};
    int16_t wide[] = {0, 512, 0, 0, 0, 0, 0, 0}, row[] = {21, 9, -9, -21, 21, 9, -9, -21};
    int16_t low[] = {-32768, -32768, -32768, -32768}, sum[] = {-4096, 0, 0, 0}, held[sizeof low / sizeof *low];
    if (galemosu_inverse(block, 5, 1, 1) != GALEMOSU_ACCEPTED || memcmp(block, right, sizeof block)
        || galemosu_inverse(wide, 8, 2, 1) != GALEMOSU_ACCEPTED || memcmp(wide, row, sizeof wide))
        return 0;
    memcpy(held, low, sizeof low);
    if (galemosu_inverse(low, 3, 0, 1) != GALEMOSU_SIDE || galemosu_inverse(low, 3, 1, 6) != GALEMOSU_SIDE
        || galemosu_inverse(low, 3, 1, 1) != GALEMOSU_LENGTH || memcmp(low, held, sizeof low))
        return 0;
    return galemosu_inverse(low, 4, 1, 1) == GALEMOSU_ACCEPTED && !memcmp(low, sum, sizeof low);
}

/* Both extremes of one block; either list too short; of several faults the first is told. */
static int measure_is_right(void)
{
    int16_t residuals[] = {100, 98, -40, 5, 99}, levels[] = {3, -1, 4, 1, 99};
    uint64_t answer[2] = {5, 5};
    if (galemosu_measure(residuals, 5, levels, 5, 1, 34, 0, answer) != GALEMOSU_ACCEPTED || answer[0] != 8
        || answer[1] != 14)
        return 0;
    if (galemosu_measure(residuals, 3, levels, 4, 0, 64, 0, answer) != GALEMOSU_SIDE || answer[0] || answer[1])
        return 0;
    return galemosu_measure(residuals, 3, levels, 4, 1, 64, 0, answer) == GALEMOSU_QP
        && galemosu_measure(residuals, 3, levels, 4, 1, 34, 0, answer) == GALEMOSU_LENGTH
        && galemosu_measure(residuals, 4, levels, 3, 1, 34, 0, answer) == GALEMOSU_LENGTH;
}

/* A light stroke that this lambda takes away: with any height as galemosu_sub_block leaves it; held to 100, which needs
 * levels put back; refused with 15 of Y at 0, and nothing is written. U and V, whose heights are 0, are not run. */
static int guarded_is_right(void)
{
    int16_t seen[24] = {[5] = 300, [9] = 300, [13] = 300, [20] = 7}, free[24], any[24], held[24], refused[24];
    uint32_t qp[3] = {46, 46, 46}, tall[6] = {33791, 0, 0, 33791, 0, 0}, low[6] = {100, 0, 0, 100, 0, 0}, none[6] = {0};
    double lambda[3] = {2000.0, 2000.0, 2000.0};
    uint64_t first[7], answer[13], found[2];
    memcpy(free, seen, sizeof seen), memcpy(any, seen, sizeof seen);
    memcpy(held, seen, sizeof seen), memcpy(refused, seen, sizeof seen);
    if (galemosu_sub_block(free, 24, 2, qp, lambda, GALEMOSU_RUN_Y, INTRA, &costs, first) != GALEMOSU_ACCEPTED
        || galemosu_guarded_sub_block(any, 24, 2, qp, lambda, GALEMOSU_RUN_Y, INTRA, &costs, tall, answer)
            != GALEMOSU_ACCEPTED
        || memcmp(free, any, sizeof free) || answer[1] != first[1] || answer[4] != first[4] || answer[7] != 300
        || answer[10] != 0 || answer[8] || answer[9] || answer[11] || answer[12])
        return 0;
    if (galemosu_guarded_sub_block(held, 24, 2, qp, lambda, GALEMOSU_RUN_Y, INTRA, &costs, low, answer)
            != GALEMOSU_ACCEPTED
        || answer[1] == 0 || answer[4] <= first[4] || answer[7] > 100 || answer[10] > 100 || held[20] != 7
        || galemosu_measure(seen, 24, held, 24, 2, 46, 0, found) != GALEMOSU_ACCEPTED || found[0] != answer[7]
        || found[1] != answer[10])
        return 0;
    return galemosu_guarded_sub_block(refused, 24, 2, qp, lambda, 7, INTRA, &costs, none, answer) == GALEMOSU_HEIGHT
        && answer[0] == 0 && answer[1] == 0 && answer[7] == 0 && !memcmp(refused, seen, sizeof seen);
}

/* Symbols of a 4x4 block with a surplus behind the block and behind the list; 1, 5, 6, and 10 where a place is missing;
 * the empty block. */
static int write_symbols_is_right(void)
{
    int16_t block[17] = {[1] = -3, [4] = 7, [7] = 32767, [12] = -1, [16] = -32768};
    int16_t low[16] = {[15] = -32768}, none[4] = {0};
    uint32_t list[5] = {9, 8, 7, 6, 5}, held[5] = {9, 8, 7, 6, 5};
    uint64_t answer[1] = {5};
    if (galemosu_write_symbols(low, 15, 0, list, 5, answer) != GALEMOSU_SIDE || answer[0]
        || galemosu_write_symbols(low, 15, 6, list, 5, answer) != GALEMOSU_SIDE
        || galemosu_write_symbols(low, 15, 2, list, 5, answer) != GALEMOSU_LENGTH
        || galemosu_write_symbols(low, 16, 2, list, 0, answer) != GALEMOSU_SAMPLE
        || galemosu_write_symbols(block, 17, 2, list, 3, answer) != GALEMOSU_ROOM || answer[0]
        || memcmp(list, held, sizeof list))
        return 0;
    answer[0] = 5;
    if (galemosu_write_symbols(none, 4, 1, list, 0, answer) != GALEMOSU_ACCEPTED || answer[0]
        || galemosu_write_symbols(block, 17, 2, list, 5, answer) != GALEMOSU_ACCEPTED || answer[0] != 4 || list[4] != 5)
        return 0;
    return list[0] == 33557505 && list[1] == 7168 && list[2] == 33555462 && list[3] == 100662274
        && GALEMOSU_SYMBOL_RUN(list[2]) == 6 && GALEMOSU_SYMBOL_MAGNITUDE(list[3]) == 32767
        && GALEMOSU_SYMBOL_NEGATIVE(list[2]) && !GALEMOSU_SYMBOL_NEGATIVE(list[3]) && GALEMOSU_SYMBOL_LAST(list[3])
        && !GALEMOSU_SYMBOL_LAST(list[2]);
}

/* The same block back, over another; 1, 5, and each kind of 11; the empty list. */
static int read_symbols_is_right(void)
{
    enum { LAST = 1 << 26 };
    static const uint32_t wrong[][2] = {
        {1024, 3 | LAST},                 /* a magnitude of 0 */
        {1024, 1 << 27 | 1024 | LAST},    /* an unused bit */
        {1024, 1u << 31 | 1024 | LAST},   /* another */
        {1024, 1024 + 3 + LAST},          /* past the block */
        {1024, 1024},                     /* no last mark */
        {1024 | LAST, 1024 | LAST},       /* one behind it */
    };
    uint32_t list[] = {33557505, 7168, 33555462, 100662274};
    int16_t block[17], right[17] = {[1] = -3, [4] = 7, [7] = 32767, [12] = -1, [16] = 77}, held[4] = {5, 6, 7, 8};
    for (int i = 0; i < 17; i++)
        block[i] = 77;
    for (unsigned i = 0; i < sizeof wrong / sizeof *wrong; i++) {
        int16_t small[4] = {5, 6, 7, 8};
        if (galemosu_read_symbols(wrong[i], 2, small, 4, 0) != GALEMOSU_SIDE
            || galemosu_read_symbols(wrong[i], 2, small, 3, 1) != GALEMOSU_LENGTH
            || galemosu_read_symbols(wrong[i], 2, small, 4, 1) != GALEMOSU_SYMBOL || memcmp(small, held, sizeof small))
            return 0;
    }
    if (galemosu_read_symbols(list, 4, block, 17, 2) != GALEMOSU_ACCEPTED || memcmp(block, right, sizeof block))
        return 0;
    return galemosu_read_symbols(list, 0, block, 17, 2) == GALEMOSU_ACCEPTED && block[1] == 0 && block[12] == 0
        && block[16] == 77;
}

int main(void)
{
    all_costs(32768);
    return !(galemosu_version() == GALEMOSU_VERSION && transform_is_right() && quantise_is_right() && modes_are_right()
        && skip_is_right() && costs_are_right() && sub_block_is_right(INTRA)
        && sub_block_is_right(INTRA | GALEMOSU_LEAST) && scale_back_is_right() && inverse_is_right()
        && measure_is_right() && guarded_is_right() && write_symbols_is_right() && read_symbols_is_right());
}
