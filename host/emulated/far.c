/* Makes the calls that near.c sends, with the archive that it is linked with, until there are no more. */
#include "call.h"
#include <stdlib.h>
#include <string.h>
#include <unistd.h>

static int all_read(void *to, size_t n)
{
    for (char *at = to; n;) {
        long got = read(0, at, n);
        if (got <= 0)
            return 0;
        at += got, n -= (size_t)got;
    }
    return 1;
}

static int all_written(const void *from, size_t n)
{
    for (const char *at = from; n;) {
        long put = write(1, at, n);
        if (put <= 0)
            return 0;
        at += put, n -= (size_t)put;
    }
    return 1;
}

typedef uint32_t quantise(int16_t *, size_t, size_t, uint32_t, double, uint32_t, const galemosu_costs *, uint64_t *);

static uint32_t quantised(quantise *call, struct call *c, int16_t *buffer)
{
    return call(buffer, c->len, c->log2_a, c->qp[0], c->lambda[0], c->flags, &c->costs, c->answer);
}

static uint32_t with_list(struct call *c, int16_t *block)
{
    size_t len = c->len - 2 * c->list, bytes = c->list * sizeof(uint32_t);
    uint32_t *list = malloc(bytes + sizeof *list); /* aligned, as it may not be behind the block */
    if (!list)
        exit(1);
    memcpy(list, block + len, bytes);
    uint32_t result = c->what == WRITE_SYMBOLS
        ? galemosu_write_symbols(block, len, c->log2_a, list, c->list, c->answer)
        : galemosu_read_symbols(list, c->list, block, len, c->log2_a);
    memcpy(block + len, list, bytes);
    free(list);
    return result;
}

static uint32_t made(struct call *c, int16_t *buffer)
{
    switch (c->what) {
    case VERSION: return galemosu_version();
    case TRANSFORM: return galemosu_transform(buffer, c->len, c->log2_a, c->log2_b);
    case QUANTISE_Y: return quantised(galemosu_quantise_y, c, buffer);
    case QUANTISE_U: return quantised(galemosu_quantise_u, c, buffer);
    case QUANTISE_V: return quantised(galemosu_quantise_v, c, buffer);
    case SCALE_BACK: return galemosu_scale_back(buffer, c->len, c->log2_a, c->qp[0]);
    case INVERSE: return galemosu_inverse(buffer, c->len, c->log2_a, c->log2_b);
    case GUARDED:
        return galemosu_guarded_sub_block(buffer, c->len, c->log2_a, c->qp, c->lambda, c->run, c->flags, &c->costs,
            c->heights, c->answer);
    case MEASURE:
        return galemosu_measure(buffer, c->residuals, buffer + c->residuals, c->len - c->residuals, c->log2_a, c->qp[0],
            c->flags, c->answer);
    case WRITE_SYMBOLS:
    case READ_SYMBOLS: return with_list(c, buffer);
    default:
        return galemosu_sub_block(buffer, c->len, c->log2_a, c->qp, c->lambda, c->run, c->flags, &c->costs, c->answer);
    }
}

int main(void)
{
    struct call c;
    while (all_read(&c, sizeof c)) {
        size_t bytes = c.len * sizeof(int16_t);
        int16_t *buffer = malloc(bytes + 2);
        if (!buffer || !all_read(buffer, bytes))
            return 1;
        c.result = made(&c, buffer);
        if (!all_written(&c, sizeof c) || !all_written(buffer, bytes))
            return 1;
        free(buffer);
    }
    return 0;
}
