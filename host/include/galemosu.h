/* The proved transform and quantiser of an EVC recorder, and their way back: libgalemosu.a, version 0.6.0.
 *
 * The recorder's half is galemosu_transform, galemosu_quantise_* and galemosu_sub_block; the viewer's is
 * galemosu_scale_back and galemosu_inverse. Both together are galemosu_guarded_sub_block, which holds every sample of
 * what is shown to heights that the host names, and galemosu_measure. Between the two, galemosu_write_symbols lists the
 * levels of a block for the entropy coder, and galemosu_read_symbols makes the block of such a list again.
 * docs/HOSTING.md walks through coding and showing one block; docs/PROMISES.md says what is proved. Of the calls
 * without "guarded" what is proved speaks of residuals, coefficients, levels, symbols and prices, never of how far a
 * sample that a viewer shows is off (docs/ANSWER.md).
 *
 * RESULTS. Every call comes back, for all numbers, lengths, samples and lists. The result is 0 (GALEMOSU_ACCEPTED) or
 * the number of the first fault that holds, in the order of enum galemosu_refusal; a refused buffer or list then holds
 * what it held. A host treats every result but 0 as a refusal, also a number that this header does not name.
 *
 * ANSWERS. `answer` is written in either case. Of a refusal it has the component (0, 1, 2 for Y, U, V; 0 where the
 * fault belongs to none: GALEMOSU_SIDE, GALEMOSU_COST, GALEMOSU_LENGTH) and zeros. galemosu_transform,
 * galemosu_scale_back, galemosu_inverse and galemosu_read_symbols have no answer, and those of galemosu_measure and
 * galemosu_write_symbols have no component: they treat all components alike, and a fault of theirs belongs to none.
 *
 * MEMORY. A block or buffer is a pointer and a length in samples, a list a pointer and a length in symbols. What lies
 * behind the block in a longer buffer is neither read nor changed, and so what lies behind the symbols in a longer list
 * that is written. Pointers are not null, also at length 0, and aligned to their type; arrays have the lengths written
 * here. What a call writes (block or buffer, list, answer) must not overlap anything else that it is lent; what it only
 * reads (costs, qp, lambda, heights, residuals, levels, a list of symbols) may be shared by calls that run at the same
 * time.
 *
 * STATE AND THREADS. There is none to set up or to keep: no writable global, no allocation, no lock, no file. A call
 * depends on its arguments alone, and calls may run on any threads at the same time. Of C's library only memcpy and
 * memset are asked for. Floating point is used for lambda alone, and must round to nearest, as C does at its start.
 *
 * STACK. A call takes at most 16 KB in galemosu_transform and in galemosu_quantise_*, 18 KB in galemosu_inverse, 20 KB
 * in galemosu_sub_block and in galemosu_measure, 36 KB in galemosu_guarded_sub_block, 1 KB in galemosu_scale_back, 6 KB
 * in galemosu_write_symbols and in galemosu_read_symbols: measured by host/include/stack.c, which fails where it is
 * more.
 *
 * TARGETS. 64-bit processors only: this is asserted below.
 */
#ifndef GALEMOSU_H
#define GALEMOSU_H

#include <stddef.h>
#include <stdint.h>

#ifdef __cplusplus
extern "C" {
#endif

/* major*10000 + minor*100 + patch, of this header */
#define GALEMOSU_VERSION 600

/* The same of the archive that was linked. A host compares the two once, at its start: an archive of another version
 * may read other arguments. */
uint32_t galemosu_version(void);

enum galemosu_refusal {
    GALEMOSU_ACCEPTED = 0,
    GALEMOSU_SIDE = 1,       /* a log2 side is outside 1..5, luma's of galemosu_sub_block outside 2..5 */
    GALEMOSU_QP = 2,         /* above 63 */
    GALEMOSU_LAMBDA = 3,     /* a NaN, below 0 or above 8192 (-0.0 is taken) */
    GALEMOSU_COST = 4,       /* one of the 28 entries is above 1,048,576, whether this call would use it or not */
    GALEMOSU_LENGTH = 5,     /* the buffer is shorter than the block; galemosu_sub_block needs 3/2 of luma's */
    GALEMOSU_SAMPLE = 6,     /* a residual is outside -1023..1023; of galemosu_quantise_*, a coefficient is -32768;
                              * of galemosu_write_symbols, a level is */
    GALEMOSU_LEVEL = 7,      /* a rounded magnitude is above 32767 */
    GALEMOSU_PRICE = 8,      /* lambda's whole number times the largest rounded magnitude plus one is above 2^41 */
    GALEMOSU_DISTORTION = 9, /* the squared errors of the block left uncoded add up to more than 2^60 */
    GALEMOSU_ROOM = 10,      /* the list has fewer places than the block has levels that are not 0 */
    GALEMOSU_SYMBOL = 11,    /* the list is no block's: see galemosu_read_symbols */
    GALEMOSU_HEIGHT = 15     /* of a guarded block: no candidate costs less than 2^62 with all samples in the heights */
};

/* Bits of `flags`. Bit 3 is kept for a second scale table; leave it 0. Bits above it mean nothing. */
#define GALEMOSU_INTRA_SLICE 1u /* the slice is intra: sets how weak a block must be to be skipped */
#define GALEMOSU_INTRA_CODED 2u /* the block is predicted intra: luma's flag is priced by cbf_luma, not cbf_all */
#define GALEMOSU_LEAST 4u       /* the second mode: the cheapest block of all. Without it: the walk */

/* Bits of `run`: which components are coded. Others mean nothing. */
#define GALEMOSU_RUN_Y 1u
#define GALEMOSU_RUN_U 2u
#define GALEMOSU_RUN_V 4u

/* What the symbols of a block cost, as the host's entropy coder estimates it now.
 *
 * An entry is in units of 1/32768 bit, from 0 to 1,048,576 (32 bits): -32768*log2(p) for a symbol of probability p. A
 * context that stands at one half has 32768 in both of its entries. Of each pair, entry [0] is the price of coding a 0
 * there and entry [1] that of coding a 1. A sign costs one bit, 32768, and has no entry.
 *
 * Places are taken in scan order. "After a zero" means that the level one place before is 0; the first place of a block
 * counts as after a level that is not.
 */
typedef struct {
    /* Is the level at this place 0? [1]: it is 0, the run of zeros goes on. [0]: it is not.
     * Rows: 0 luma, 1 luma after a zero; 2 chroma, 3 chroma after a zero. */
    uint64_t run[4][2];
    /* The magnitude of a level that is not 0. Rows: 0 luma, 2 chroma: [0] it is 1, [1] it is 2 or more; rows 1 and 3,
     * of luma and of chroma, price the rest of one that is 2 or more: [1] once for each step above 2, [0] once for the
     * end. So 1 costs level[j][0], and a of 2 or more costs level[j][1] + (a - 2)*level[j+1][1] + level[j+1][0]. */
    uint64_t level[4][2];
    /* Behind each level that is not 0: [1] it is the block's last such, [0] others follow. Rows: 0 luma, 1 chroma. */
    uint64_t last[2][2];
    /* Whether a block has a level at all: [1] it has, [0] it is empty. */
    uint64_t cbf_all[2];  /* luma of a block that is not intra-coded */
    uint64_t cbf_luma[2]; /* luma of an intra-coded block */
    uint64_t cbf_cb[2];   /* U */
    uint64_t cbf_cr[2];   /* V */
} galemosu_costs;

/* QP is the slice's plus 12: a sample has 10 bits, and the steps of a QP are twice as large six QPs on, so that the two
 * bits above 8 shift it by twelve. 0 to 63 here is -12 to 51 of the slice. Of chroma it is the QP that the encoder's
 * chroma table gives, plus 12.
 *
 * LAMBDA is what a bit may cost in squared error, measured in steps of an 8-bit sample, as encoders give it: 0.57 *
 * 2^((QP - 24) / 3) is usual, with each component's own QP. It is used as a whole number of 1/32768ths, lambda * 32768
 * + 0.5 with its fraction dropped. A lambda of 0 weighs no bits at all.
 *
 * PRICE is squared error plus lambda times bits, in units of which 2^30 are one squared step of an 8-bit sample, and
 * 2^26 one of a 10-bit sample: a bit costs 32768 times lambda's whole number, and residuals that are left uncoded cost
 * about 2^26 times the sum of their squares. So prices of different QPs and sides can be added up and compared.
 *
 * THE SKIP. A block whose coefficients are all below 311/512 of a step, in a slice that is not intra 359/512, is
 * cleared without being weighed. It answers count 0 and the price of an empty block, its squared error plus lambda
 * times the empty flag's cost, as a block does that was weighed and came out empty. A component that is not run answers
 * 0 and 0.
 */

/* Residuals become coefficients, in place: by rows, 2^log2_w wide and 2^log2_h high. Tests 1, 5 and 6, in this
 * order. */
uint32_t galemosu_transform(int16_t *block, size_t len, size_t log2_w, size_t log2_h);

/* Coefficients of a square block of side 2^log2_side become levels, in place, by the costs and flags of one component:
 * luma (_y) or chroma (_u, _v). Tests 1 to 9 in their order, 7 to 9 only of a block that is not skipped.
 * answer: component, count of levels that are not 0, price.
 *
 * With m the coefficient's magnitude in steps, rounded, a level is 0 or has the coefficient's sign and magnitude m, or
 * m - 1 where m is 2 or more. The walk takes, place by place in scan order, what is cheapest after the places before
 * it, and ends the block where that is cheapest. With GALEMOSU_LEAST the block is the one of least price among all of
 * such levels, at equal price the one whose magnitudes in scan order come first in dictionary order; it is never dearer
 * than the walk's. The skip goes first in both, and refusals are the same. */
uint32_t galemosu_quantise_y(int16_t *block, size_t len, size_t log2_side, uint32_t qp, double lambda, uint32_t flags,
    const galemosu_costs *costs, uint64_t answer[3]);
uint32_t galemosu_quantise_u(int16_t *block, size_t len, size_t log2_side, uint32_t qp, double lambda, uint32_t flags,
    const galemosu_costs *costs, uint64_t answer[3]);
uint32_t galemosu_quantise_v(int16_t *block, size_t len, size_t log2_side, uint32_t qp, double lambda, uint32_t flags,
    const galemosu_costs *costs, uint64_t answer[3]);

/* Residuals of Y of side 2^log2_luma, then of U and V of half that side, one behind the other, become levels, of the
 * components whose bit is set in run. qp and lambda are those of Y, U, V. Nothing is written until every test of every
 * component has passed: 1; 2 of Y, U, V; 3 of Y, U, V; 4; 5; 6 of Y, U, V; then 7 to 9 of Y, of U, of V.
 * answer: component, counts of Y U V, prices of Y U V.
 *
 * Of a component that is not run neither QP nor lambda nor residuals are looked at; its residuals stay where they are,
 * and it answers count 0 and price 0. The side, all 28 costs and the length of all three are asked for all the same. */
uint32_t galemosu_sub_block(int16_t *buffer, size_t len, size_t log2_luma, const uint32_t qp[3], const double lambda[3],
    uint32_t run, uint32_t flags, const galemosu_costs *costs, uint64_t answer[7]);

/* THE WAY BACK. Of the two calls below it is proved that they give the numbers of the formulas written here: document
 * 02's, as the standard's own text, ISO/IEC 23094-1, was not at hand. They bring back what was coded, not what the
 * camera saw; and what a viewer shows is that plus its guess, clipped to a sample's range and filtered at the edges of
 * blocks, none of which is here. */

/* Levels of a square block of side 2^log2_side become the coefficients that a viewer takes them for, in place, with
 * the QP that they were quantised with. Each by itself becomes level * s * 2^(QP / 6), plus 2^log2_side, shifted right
 * by 1 + log2_side, clipped to 16 bits; s is 40, 45, 51, 57, 64, 72 by QP mod 6, and QP / 6 is a whole number.
 * Tests 1, 2 and 5, in this order. No level is refused. */
uint32_t galemosu_scale_back(int16_t *block, size_t len, size_t log2_side, uint32_t qp);

/* Coefficients become residuals, in place: by rows, 2^log2_w wide and 2^log2_h high. Residual (y, x) is the sum over
 * all v and u of T_h[v][y] * T_w[u][x] * coefficient(v, u), plus 2^16, shifted right by 17, clipped to 16 bits, with
 * the matrices of galemosu_transform. At 2x2 the inverse of an accepted transform gives the residuals back; at other
 * sides it comes near them. What comes out is not held to -1023..1023, and the guess is not in it.
 * Tests 1 and 5, in this order. No coefficient is refused. */
uint32_t galemosu_inverse(int16_t *block, size_t len, size_t log2_w, size_t log2_h);

/* GUARDED. A residual is the camera's sample less a guess, and a viewer adds what it decodes to the same guess. So how
 * far what is decoded lies from the residuals is how far what is shown lies from what the camera saw, whatever the
 * guess was: camera - darker <= shown <= camera + lighter, where samples are 0 to 1023 and what is shown is clipped to
 * that. Where paper is at least W, ink at most W - C, and the two heights add up to less than C, one threshold tells
 * paper from ink in what is shown. This is proved of every sample of an accepted galemosu_guarded_sub_block, for a
 * viewer that decodes as galemosu_scale_back and galemosu_inverse do and has the recorder's guess; a filter behind it
 * is not spoken of. */

/* galemosu_sub_block, held to heights: how much darker a sample of Y, U, V may get, then how much lighter. Each block
 * is decoded as a viewer does it. Where a sample is off by more, the level at the first place in scan order is put back
 * to m, its rounded magnitude, then those at the first 2, 4, 8 places and so on up to all; the first block that is
 * within, and costs less than 2^62, is written. Where none is, plain rounding neither, the call is refused with 15 and
 * the component. Levels are still 0 or have the coefficient's sign and magnitude m or m - 1.
 * Tests as galemosu_sub_block, with 15 behind 9 of the same component; nothing is written before all have passed.
 * answer: component, counts, prices, how much darker, how much lighter the samples got at most, each of Y U V; the last
 * two are exact. Of a component that is not run all are 0, and its heights are not looked at. With heights of 33791 and
 * more it answers as galemosu_sub_block does. */
uint32_t galemosu_guarded_sub_block(int16_t *buffer, size_t len, size_t log2_luma, const uint32_t qp[3],
    const double lambda[3], uint32_t run, uint32_t flags, const galemosu_costs *costs, const uint32_t heights[6],
    uint64_t answer[13]);

/* How far what a viewer makes of the levels of a square block of side 2^log2_side, of any origin, lies from the
 * residuals at most: answer is how much darker a sample gets, and how much lighter; both are exact, and 0 where the
 * call is refused. Nothing else is written. No bit of flags means anything yet: pass 0. Tests 1, 2 and 5 (of either),
 * in this order. No sample is refused. */
uint32_t galemosu_measure(const int16_t *residuals, size_t residuals_len, const int16_t *levels, size_t levels_len,
    size_t log2_side, uint32_t qp, uint32_t flags, uint64_t answer[2]);

/* SYMBOLS. A finished block as a list for the entropy coder: one symbol for each level that is not 0, in scan order. A
 * symbol is the run of zeros before the level (back to the one before, or to the block's beginning) in the 10 lowest
 * bits, 15 bits of magnitude above it, the sign, 1 where it is negative, and the last mark, 1 on the list's last
 * symbol; the 5 highest bits are 0. The empty block has the empty list. Reading what was written gives the block back,
 * and a list that is read is the one that is written of its block: this is proved. */
#define GALEMOSU_SYMBOL_RUN(symbol) ((symbol) & 1023u)
#define GALEMOSU_SYMBOL_MAGNITUDE(symbol) ((symbol) >> 10 & 32767u)
#define GALEMOSU_SYMBOL_NEGATIVE(symbol) ((symbol) >> 25 & 1u)
#define GALEMOSU_SYMBOL_LAST(symbol) ((symbol) >> 26 & 1u)

/* The levels of a square block of side 2^log2_side, by rows, become symbols at the front of list; answer is how many
 * there are, 0 where the call is refused. As many places as the block has always suffice. Tests 1, 5, 6 (a level of
 * -32768) and 10, in this order. */
uint32_t galemosu_write_symbols(const int16_t *block, size_t len, size_t log2_side, uint32_t *list, size_t list_len,
    uint64_t answer[1]);

/* The symbols of a whole list become the levels of a square block of side 2^log2_side, by rows: each level behind its
 * zeros in scan order, and 0 behind the last. list_len is the number of symbols, not of places. Tests 1, 5 and 11, in
 * this order; 11 where a magnitude is 0, an unused bit is set, a run goes past the block, the last symbol has no last
 * mark, or another one has it. */
uint32_t galemosu_read_symbols(const uint32_t *list, size_t list_len, int16_t *block, size_t len, size_t log2_side);

#ifdef __cplusplus
}
#endif

/* What the archive takes for granted: 64 bits, an f64, and the costs as 28 numbers in the order run, level, last, cbf
 * of all, luma, cb, cr. */
#if defined(__cplusplus) && __cplusplus >= 201103L
#define GALEMOSU_ASSERT(what, name) static_assert(what, #name)
#elif !defined(__cplusplus) && defined(__STDC_VERSION__) && __STDC_VERSION__ >= 201112L
#define GALEMOSU_ASSERT(what, name) _Static_assert(what, #name)
#else
#define GALEMOSU_ASSERT(what, name) typedef char galemosu_##name[(what) ? 1 : -1]
#endif
GALEMOSU_ASSERT(sizeof(void *) == 8 && sizeof(size_t) == 8, galemosu_is_for_64_bit_targets_only);
GALEMOSU_ASSERT(sizeof(double) == 8, a_double_has_64_bits);
GALEMOSU_ASSERT(sizeof(galemosu_costs) == 28 * sizeof(uint64_t), costs_are_28_numbers);
GALEMOSU_ASSERT(offsetof(galemosu_costs, run) == 0, run_is_0_to_7);
GALEMOSU_ASSERT(offsetof(galemosu_costs, level) == 8 * sizeof(uint64_t), level_is_8_to_15);
GALEMOSU_ASSERT(offsetof(galemosu_costs, last) == 16 * sizeof(uint64_t), last_is_16_to_19);
GALEMOSU_ASSERT(offsetof(galemosu_costs, cbf_all) == 20 * sizeof(uint64_t), cbf_all_is_20_and_21);
GALEMOSU_ASSERT(offsetof(galemosu_costs, cbf_luma) == 22 * sizeof(uint64_t), cbf_luma_is_22_and_23);
GALEMOSU_ASSERT(offsetof(galemosu_costs, cbf_cb) == 24 * sizeof(uint64_t), cbf_cb_is_24_and_25);
GALEMOSU_ASSERT(offsetof(galemosu_costs, cbf_cr) == 26 * sizeof(uint64_t), cbf_cr_is_26_and_27);
#undef GALEMOSU_ASSERT

#endif
