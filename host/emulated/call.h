/* A call of galemosu.h on its way to the program that makes it and back: this record, then the buffer, of measure
 * the residuals and the levels behind them, of symbols the block and the list behind it, each symbol in the place of
 * two samples. Both sides have the same layout: 64 bits, little-endian. */
#include "galemosu.h"

enum what {
    VERSION, TRANSFORM, QUANTISE_Y, QUANTISE_U, QUANTISE_V, SUB_BLOCK, SCALE_BACK, INVERSE, GUARDED, MEASURE,
    WRITE_SYMBOLS, READ_SYMBOLS
};

struct call {
    uint64_t what, len, log2_a, log2_b; /* one log2 side, or width and height */
    uint64_t residuals;                 /* of measure: how many of the samples */
    uint64_t list;                      /* of symbols: how many there are */
    galemosu_costs costs;
    uint64_t answer[13];
    double lambda[3];
    uint32_t qp[3], heights[6], run, flags, result;
};
