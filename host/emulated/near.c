/* The calls of galemosu.h for a host on this processor: each is sent to far.c, which has the archive for another and
 * is run under emulation, and what it left comes back. RUNNER and PROGRAM are given when this is compiled. */
#include "call.h"
#include <pthread.h>
#include <stdio.h>
#include <stdlib.h>
#include <string.h>
#include <unistd.h>

static pthread_mutex_t one = PTHREAD_MUTEX_INITIALIZER;
static int to, from, started;

static void stop(const char *why)
{
    fprintf(stderr, "galemosu, emulated: %s\n", why);
    abort();
}

static void start(void)
{
    int out[2], in[2];
    if (pipe(out) || pipe(in))
        stop("no pipe");
    pid_t child = fork();
    if (child < 0)
        stop("no process");
    if (child == 0) {
        dup2(out[0], 0), dup2(in[1], 1);
        close(out[0]), close(out[1]), close(in[0]), close(in[1]);
        execl(RUNNER, RUNNER, PROGRAM, (char *)0);
        _exit(127);
    }
    close(out[0]), close(in[1]);
    to = out[1], from = in[0], started = 1;
}

static void sent(const void *what, size_t n)
{
    for (const char *at = what; n;) {
        ssize_t put = write(to, at, n);
        if (put <= 0)
            stop("the call could not be sent");
        at += put, n -= (size_t)put;
    }
}

static void received(void *what, size_t n)
{
    for (char *at = what; n;) {
        ssize_t got = read(from, at, n);
        if (got <= 0)
            stop("the call did not come back");
        at += got, n -= (size_t)got;
    }
}

static uint32_t relayed(struct call *c, int16_t *buffer)
{
    size_t bytes = c->len * sizeof *buffer;
    pthread_mutex_lock(&one);
    if (!started)
        start();
    sent(c, sizeof *c), sent(buffer, bytes);
    received(c, sizeof *c), received(buffer, bytes);
    pthread_mutex_unlock(&one);
    return c->result;
}

uint32_t galemosu_version(void)
{
    struct call c = {.what = VERSION};
    int16_t none[1];
    return relayed(&c, none);
}

uint32_t galemosu_transform(int16_t *block, size_t len, size_t log2_w, size_t log2_h)
{
    struct call c = {.what = TRANSFORM, .len = len, .log2_a = log2_w, .log2_b = log2_h};
    return relayed(&c, block);
}

#define QUANTISE(name, component)                                                                                \
    uint32_t name(int16_t *block, size_t len, size_t log2_side, uint32_t qp, double lambda, uint32_t flags,      \
        const galemosu_costs *costs, uint64_t answer[3])                                                         \
    {                                                                                                            \
        struct call c = {.what = component, .len = len, .log2_a = log2_side, .qp = {qp}, .lambda = {lambda},     \
            .flags = flags, .costs = *costs};                                                                    \
        relayed(&c, block);                                                                                      \
        memcpy(answer, c.answer, 3 * sizeof *answer);                                                            \
        return c.result;                                                                                         \
    }
QUANTISE(galemosu_quantise_y, QUANTISE_Y)
QUANTISE(galemosu_quantise_u, QUANTISE_U)
QUANTISE(galemosu_quantise_v, QUANTISE_V)

uint32_t galemosu_sub_block(int16_t *buffer, size_t len, size_t log2_luma, const uint32_t qp[3], const double lambda[3],
    uint32_t run, uint32_t flags, const galemosu_costs *costs, uint64_t answer[7])
{
    struct call c = {.what = SUB_BLOCK, .len = len, .log2_a = log2_luma, .run = run, .flags = flags, .costs = *costs};
    memcpy(c.qp, qp, sizeof c.qp), memcpy(c.lambda, lambda, sizeof c.lambda);
    relayed(&c, buffer);
    memcpy(answer, c.answer, 7 * sizeof *answer);
    return c.result;
}

uint32_t galemosu_scale_back(int16_t *block, size_t len, size_t log2_side, uint32_t qp)
{
    struct call c = {.what = SCALE_BACK, .len = len, .log2_a = log2_side, .qp = {qp}};
    return relayed(&c, block);
}

uint32_t galemosu_inverse(int16_t *block, size_t len, size_t log2_w, size_t log2_h)
{
    struct call c = {.what = INVERSE, .len = len, .log2_a = log2_w, .log2_b = log2_h};
    return relayed(&c, block);
}

uint32_t galemosu_guarded_sub_block(int16_t *buffer, size_t len, size_t log2_luma, const uint32_t qp[3],
    const double lambda[3], uint32_t run, uint32_t flags, const galemosu_costs *costs, const uint32_t heights[6],
    uint64_t answer[13])
{
    struct call c = {.what = GUARDED, .len = len, .log2_a = log2_luma, .run = run, .flags = flags, .costs = *costs};
    memcpy(c.qp, qp, sizeof c.qp), memcpy(c.lambda, lambda, sizeof c.lambda);
    memcpy(c.heights, heights, sizeof c.heights);
    relayed(&c, buffer);
    memcpy(answer, c.answer, sizeof c.answer);
    return c.result;
}

uint32_t galemosu_measure(const int16_t *residuals, size_t residuals_len, const int16_t *levels, size_t levels_len,
    size_t log2_side, uint32_t qp, uint32_t flags, uint64_t answer[2])
{
    size_t len = residuals_len + levels_len;
    struct call c = {.what = MEASURE, .len = len, .log2_a = log2_side, .residuals = residuals_len, .qp = {qp},
        .flags = flags};
    int16_t *both = malloc(len * sizeof *both + 2);
    if (!both)
        stop("no memory");
    memcpy(both, residuals, residuals_len * sizeof *both);
    memcpy(both + residuals_len, levels, levels_len * sizeof *both);
    relayed(&c, both);
    free(both);
    memcpy(answer, c.answer, 2 * sizeof *answer);
    return c.result;
}

/* A call over a block and a list: both go there, and what is written of them comes back. */
static void relayed_both(struct call *c, const int16_t *block, size_t len, const uint32_t *list, size_t list_len,
    int16_t *block_back, uint32_t *list_back)
{
    size_t bytes = list_len * sizeof *list;
    int16_t *both = malloc(len * sizeof *both + bytes + 2);
    if (!both)
        stop("no memory");
    memcpy(both, block, len * sizeof *both), memcpy(both + len, list, bytes);
    c->len = len + 2 * list_len, c->list = list_len;
    relayed(c, both);
    if (block_back)
        memcpy(block_back, both, len * sizeof *both);
    if (list_back)
        memcpy(list_back, both + len, bytes);
    free(both);
}

uint32_t galemosu_write_symbols(const int16_t *block, size_t len, size_t log2_side, uint32_t *list, size_t list_len,
    uint64_t answer[1])
{
    struct call c = {.what = WRITE_SYMBOLS, .log2_a = log2_side};
    relayed_both(&c, block, len, list, list_len, 0, list);
    answer[0] = c.answer[0];
    return c.result;
}

uint32_t galemosu_read_symbols(const uint32_t *list, size_t list_len, int16_t *block, size_t len, size_t log2_side)
{
    struct call c = {.what = READ_SYMBOLS, .log2_a = log2_side};
    relayed_both(&c, block, len, list, list_len, block, 0);
    return c.result;
}
