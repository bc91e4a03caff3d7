/* How much stack the calls of galemosu.h take: the memory below this program's own frame is filled with one byte, a
 * call is made, and the lowest byte that has changed tells. Every shape, side, component and mode, on blocks that are
 * skipped and blocks of which every level is kept; the way back on the same blocks, taken for levels and coefficients;
 * the guarded call with heights that nothing exceeds, and with 0, so that every candidate is tried; the same blocks as
 * symbols, and lists with a symbol for every place.
 * Prints the most of each call in bytes, 512 where it is no more than that; status 1 where one takes more than
 * galemosu.h says. What memcpy and memset take counts. */
#include "galemosu.h"
#include <stdio.h>
#include <string.h>

enum { ROOM = 64 * 1024, OWN = 512 };

static int16_t block[3 * 512];
static size_t log2_a, log2_b;
static uint32_t flags, qp[3] = {4, 4, 4};
static double lambda[3] = {0.25, 0.25, 0.25};
static galemosu_costs costs;
static uint64_t answer[13];
static uint32_t heights[6], list[1024];
static uint32_t refused;

static void transform(void) { refused |= galemosu_transform(block, 1024, log2_a, log2_b); }
static void quantise_y(void)
{
    refused |= galemosu_quantise_y(block, 1024, log2_a, qp[0], lambda[0], flags, &costs, answer);
}
static void quantise_u(void)
{
    refused |= galemosu_quantise_u(block, 1024, log2_a, qp[0], lambda[0], flags, &costs, answer);
}
static void quantise_v(void)
{
    refused |= galemosu_quantise_v(block, 1024, log2_a, qp[0], lambda[0], flags, &costs, answer);
}
static void sub_block(void)
{
    refused |= galemosu_sub_block(block, 3 * 512, log2_a, qp, lambda, 7, flags, &costs, answer);
}

static void scale_back(void) { refused |= galemosu_scale_back(block, 1024, log2_a, qp[0]); }
static void guarded(void)
{
    for (int i = 0; i < 6; i++)
        heights[i] = log2_b == 1 ? 33791 : 0;
    uint32_t result = galemosu_guarded_sub_block(block, 3 * 512, log2_a, qp, lambda, 7, flags, &costs, heights, answer);
    refused |= result == GALEMOSU_HEIGHT ? 0 : result;
}
static void measure(void) { refused |= galemosu_measure(block, 1024, block, 1024, log2_a, qp[0], 0, answer); }
static void inverse(void) { refused |= galemosu_inverse(block, 1024, log2_a, log2_b); }
static void write_symbols(void) { refused |= galemosu_write_symbols(block, 1024, log2_a, list, 1024, answer); }
static void read_symbols(void)
{
    size_t n = (size_t)1 << 2 * log2_a;
    for (size_t i = 0; i < n; i++)
        list[i] = 1024; /* no zero before it, magnitude 1 */
    list[n - 1] |= 1 << 26;
    refused |= galemosu_read_symbols(list, n, block, 1024, log2_a);
}

/* The bytes below this frame that a call has changed, from the lowest of them up. */
static __attribute__((noinline)) size_t depth(void (*call)(void), unsigned char paint)
{
    volatile unsigned char *top = __builtin_frame_address(0);
    for (size_t i = OWN; i < ROOM; i++)
        *(top - i) = paint;
    call();
    size_t i = ROOM - 1;
    while (i > OWN && *(top - i) == paint)
        i--;
    return i;
}

/* A call on a block of residuals or coefficients of up to `most`, twice: a byte that happens to be the paint counts at
 * the other turn. */
static size_t taken(void (*call)(void), int most)
{
    size_t deepest = 0;
    for (int turn = 0; turn < 2; turn++) {
        uint32_t random = 20261115;
        for (size_t i = 0; i < sizeof block / sizeof *block; i++) {
            random = random * 1664525 + 1013904223;
            block[i] = (int16_t)((int)(random >> 8) % (most + 1) * (random >> 31 ? 1 : -1));
        }
        size_t now = depth(call, turn ? 0x5a : 0xa5);
        deepest = now > deepest ? now : deepest;
    }
    return deepest;
}

static size_t most_of(void (*call)(void), size_t first_side)
{
    size_t deepest = 0;
    /* once without measuring: a host that binds memcpy and memset at their first call takes some KB for it there */
    log2_a = 5, log2_b = 5, flags = 4;
    taken(call, 1023);
    for (log2_a = first_side; log2_a <= 5; log2_a++)
        for (log2_b = 1; log2_b <= 5; log2_b++)
            for (flags = 0; flags < 8; flags++)
                for (int most = 1; most <= 1023; most += 1022) {
                    size_t now = taken(call, most);
                    deepest = now > deepest ? now : deepest;
                }
    return deepest;
}

static int within(const char *name, size_t taken, size_t limit)
{
    printf("%s takes %zu bytes of stack, of %zu\n", name, taken, limit);
    return taken <= limit;
}

int main(void)
{
    uint64_t all[28];
    for (int i = 0; i < 28; i++)
        all[i] = 32768;
    memcpy(&costs, all, sizeof costs);
    int good = within("galemosu_transform", most_of(transform, 1), 16 * 1024);
    good &= within("galemosu_quantise_y", most_of(quantise_y, 1), 16 * 1024);
    good &= within("galemosu_quantise_u", most_of(quantise_u, 1), 16 * 1024);
    good &= within("galemosu_quantise_v", most_of(quantise_v, 1), 16 * 1024);
    good &= within("galemosu_sub_block", most_of(sub_block, 2), 20 * 1024);
    good &= within("galemosu_scale_back", most_of(scale_back, 1), 1024);
    good &= within("galemosu_inverse", most_of(inverse, 1), 18 * 1024);
    good &= within("galemosu_guarded_sub_block", most_of(guarded, 2), 36 * 1024);
    good &= within("galemosu_measure", most_of(measure, 1), 20 * 1024);
    good &= within("galemosu_write_symbols", most_of(write_symbols, 1), 6 * 1024);
    good &= within("galemosu_read_symbols", most_of(read_symbols, 1), 6 * 1024);
    if (refused)
        printf("a call was refused: not all was measured\n");
    return !good || refused;
}
