/* The program whose instructions host/count-x86 counts: linked once with the library's archive and once with the
 * Rust, each of which has galemosu_transform and galemosu_quantise_y; the way back, the calls over three components and
 * those of run lists are in the archive alone. It stands on nothing but Linux on x86-64.
 *
 *   count transform LOG2_W LOG2_H 1   TURNS times: copy a block of random residuals in, and transform it
 *   count quantise LOG2 LOG2 1        for each of BLOCKS blocks of a file of samples.rs on standard input, transformed:
 *                                     copy it in, and quantise it
 *   count inverse LOG2_W LOG2_H 1     as transform, of the coefficients of that block
 *   count scale LOG2 LOG2 1           as transform, of that block taken for levels, at QP 34
 *   count free LOG2 LOG2 1            for each of BLOCKS blocks of such a file: copy it in as luma, and code it by
 *                                     galemosu_sub_block
 *   count guarded LOG2 LOG2 1         the same by galemosu_guarded_sub_block, with heights that nothing exceeds
 *   count write LOG2 LOG2 1           for each of BLOCKS blocks of such a file, transformed and quantised: list its
 *                                     levels
 *   count read LOG2 LOG2 1            for each of these lists: read it
 *
 * With 0 for 1 the same, with a call of two instructions that do nothing for the one that is counted. Writes a
 * checksum of what the calls left, and of the quantiser's counts. What it does beside the calls takes as many
 * instructions with 1 as with 0, whatever the blocks hold. Status 0 when every call was accepted. */

typedef unsigned long size_t;
typedef unsigned long u64;
typedef __attribute__((vector_size(16), aligned(1), may_alias)) char sixteen;

typedef unsigned transforms(short *block, size_t len, size_t log2_w, size_t log2_h);
typedef unsigned scales(short *block, size_t len, size_t log2_side, unsigned qp);
typedef unsigned quantises(short *block, size_t len, size_t log2_side, unsigned qp, double lambda, unsigned flags,
    const u64 costs[28], u64 answer[3]);

typedef unsigned three(short *buffer, size_t len, size_t log2_luma, const unsigned qp[3], const double lambda[3],
    unsigned run, unsigned flags, const u64 costs[28], u64 answer[7]);
typedef unsigned guards(short *buffer, size_t len, size_t log2_luma, const unsigned qp[3], const double lambda[3],
    unsigned run, unsigned flags, const u64 costs[28], const unsigned heights[6], u64 answer[13]);

typedef unsigned writes(const short *block, size_t len, size_t log2_side, unsigned *list, size_t list_len,
    u64 answer[1]);
typedef unsigned reads(const unsigned *list, size_t list_len, short *block, size_t len, size_t log2_side);

transforms galemosu_transform, galemosu_inverse, no_transform;
scales galemosu_scale_back, no_scale;
quantises galemosu_quantise_y, no_quantise;
three galemosu_sub_block, no_three;
guards galemosu_guarded_sub_block, no_guard;
writes galemosu_write_symbols, no_write;
reads galemosu_read_symbols, no_read;
/* of the Rust alone: takes the cost tables over, which its quantiser is lent in a shape of its own */
__attribute__((weak)) void prepare(const u64 costs[28]);

enum { TURNS = 2, BLOCKS = 16 };

__asm__(".globl _start\n"
        "_start: mov %rsp, %rdi\n"
        "and $-16, %rsp\n"
        "call run\n"
        "ud2\n"
        ".globl no_transform, no_scale, no_quantise, no_three, no_guard, no_write, no_read\n"
        "no_transform: no_scale: no_quantise: no_three: no_guard: no_write: no_read: xor %eax, %eax\n"
        "ret\n");

/* Sixteen bytes at a store, as on a processor of which no more is known than x86-64; the compiler unrolls the loop
 * further. */
void *memset(void *to, int byte, size_t n)
{
    char *at = to, b = (char)byte;
    sixteen all = {b, b, b, b, b, b, b, b, b, b, b, b, b, b, b, b};
    for (; n >= 64; n -= 64, at += 64) {
        sixteen *s = (sixteen *)at;
        s[0] = all, s[1] = all, s[2] = all, s[3] = all;
    }
    for (; n >= 16; n -= 16, at += 16) *(sixteen *)at = all;
    for (; n; n--) *at++ = b;
    return to;
}

void *memcpy(void *restrict to, const void *restrict from, size_t n)
{
    char *at = to;
    const char *f = from;
    for (; n >= 64; n -= 64, at += 64, f += 64) {
        sixteen *s = (sixteen *)at;
        const sixteen *g = (const sixteen *)f;
        s[0] = g[0], s[1] = g[1], s[2] = g[2], s[3] = g[3];
    }
    for (; n >= 16; n -= 16, at += 16, f += 16) *(sixteen *)at = *(const sixteen *)f;
    for (; n; n--) *at++ = *f++;
    return to;
}

void *memmove(void *to, const void *from, size_t n)
{
    char *at = to;
    const char *f = from;
    if (at <= f || at >= f + n) return memcpy(to, from, n);
    for (; n >= 16; n -= 16) *(sixteen *)(at + n - 16) = *(const sixteen *)(f + n - 16);
    for (; n; n--) at[n - 1] = f[n - 1];
    return to;
}

static long system_call(long number, long a, long b, long c)
{
    __asm__ volatile("syscall" : "+a"(number) : "D"(a), "S"(b), "d"(c) : "rcx", "r11", "memory");
    return number;
}

static short given[BLOCKS][1024], room[1536];
static u64 sum = 0xcbf29ce484222325u;

static void add(const short *block, size_t n)
{
    for (size_t i = 0; i < n; i++) sum = (sum ^ (unsigned short)block[i]) * 0x100000001b3u;
}

/* residuals of -1023 to 1023, by the generator of blocks.rs */
static size_t residuals(size_t log2_w, size_t log2_h)
{
    size_t n = (size_t)1 << (log2_w + log2_h);
    u64 random = 0x9e3779b97f4a7c15u + 2 * (8 * log2_w + log2_h);
    for (size_t i = 0; i < n; i++) {
        random ^= random << 13, random ^= random >> 7, random ^= random << 17;
        given[0][i] = (short)((long)((random >> 11) % 2047) - 1023);
    }
    return n;
}

static unsigned transform_all(size_t log2_w, size_t log2_h, int back, int counted)
{
    transforms *const all[] = {no_transform, galemosu_transform, galemosu_inverse};
    transforms *volatile what = all[counted ? 1 + back : 0];
    size_t n = residuals(log2_w, log2_h);
    unsigned refused = back ? galemosu_transform(given[0], n, log2_w, log2_h) : 0;
    for (int turn = 0; turn < TURNS; turn++) {
        memcpy(room, given[0], n * sizeof *room);
        refused |= what(room, n, log2_w, log2_h);
        add(room, n);
    }
    return refused;
}

static unsigned scale_all(size_t log2, int counted)
{
    scales *const both[] = {no_scale, galemosu_scale_back}, *volatile what = both[counted];
    size_t n = residuals(log2, log2);
    unsigned refused = 0;
    for (int turn = 0; turn < TURNS; turn++) {
        memcpy(room, given[0], n * sizeof *room);
        refused |= what(room, n, log2, 34);
        add(room, n);
    }
    return refused;
}

static struct {
    double lambda;
    u64 qp, costs[28];
} settings;

static void all_read(void *to, size_t n)
{
    for (char *at = to; n;) {
        long got = system_call(0, 0, (long)at, (long)n);
        if (got <= 0) system_call(231, 1, 0, 0);
        at += got, n -= (size_t)got;
    }
}

static unsigned quantise_all(size_t log2, int counted)
{
    quantises *const both[] = {no_quantise, galemosu_quantise_y}, *volatile what = both[counted];
    size_t n = (size_t)1 << 2 * log2;
    unsigned refused = 0;
    all_read(&settings, sizeof settings);
    if (prepare) prepare(settings.costs);
    for (int i = 0; i < BLOCKS; i++) {
        all_read(given[i], n * sizeof *room);
        refused |= galemosu_transform(given[i], n, log2, log2);
    }
    for (int i = 0; i < BLOCKS; i++) {
        u64 answer[3] = {0};
        memcpy(room, given[i], n * sizeof *room);
        /* an intra-coded block in an intra slice, by the walk */
        refused |= what(room, n, log2, (unsigned)settings.qp, settings.lambda, 3, settings.costs, answer);
        add(room, n);
        sum = (sum ^ answer[1]) * 0x100000001b3u;
    }
    return refused;
}

/* luma alone, of an intra-coded block in an intra slice, by the walk; behind it there is room for chroma */
static unsigned code_all(size_t log2, int guarded, int counted)
{
    three *const both[] = {no_three, galemosu_sub_block}, *volatile free = both[counted];
    guards *const either[] = {no_guard, galemosu_guarded_sub_block}, *volatile guard = either[counted];
    size_t n = (size_t)1 << 2 * log2, all = n + n / 2;
    unsigned refused = 0;
    all_read(&settings, sizeof settings);
    unsigned qp[3] = {(unsigned)settings.qp, 0, 0}, heights[6] = {33791, 0, 0, 33791, 0, 0};
    double lambda[3] = {settings.lambda, 0, 0};
    for (int i = 0; i < BLOCKS; i++)
        all_read(given[i], n * sizeof *room);
    for (int i = 0; i < BLOCKS; i++) {
        u64 answer[13] = {0};
        memcpy(room, given[i], n * sizeof *room);
        refused |= guarded ? guard(room, all, log2, qp, lambda, 1, 3, settings.costs, heights, answer)
                           : free(room, all, log2, qp, lambda, 1, 3, settings.costs, answer);
        add(room, n);
        sum = (sum ^ answer[1]) * 0x100000001b3u;
    }
    return refused;
}

/* the levels that the walk leaves of an intra-coded block in an intra slice, listed, and the lists read */
static unsigned list_all(size_t log2, int reading, int counted)
{
    writes *const both[] = {no_write, galemosu_write_symbols}, *volatile write = both[counted];
    reads *const either[] = {no_read, galemosu_read_symbols}, *volatile read = either[counted];
    size_t n = (size_t)1 << 2 * log2;
    static unsigned list[1024];
    unsigned refused = 0;
    all_read(&settings, sizeof settings);
    for (int i = 0; i < BLOCKS; i++) {
        u64 answer[3] = {0}, count[1] = {0};
        all_read(room, n * sizeof *room);
        refused |= galemosu_transform(room, n, log2, log2);
        refused |= galemosu_quantise_y(room, n, log2, (unsigned)settings.qp, settings.lambda, 3, settings.costs,
            answer);
        if (reading) {
            refused |= galemosu_write_symbols(room, n, log2, list, n, count);
            refused |= read(list, count[0], room, n, log2);
        } else {
            refused |= write(room, n, log2, list, n, count);
        }
        add(room, n);
        add((const short *)list, 2 * n);
    }
    return refused;
}

__attribute__((noreturn, used)) void run(const u64 *stack)
{
    const char *const *words = (const char *const *)(stack + 1);
    size_t log2_w = (size_t)(words[2][0] - '0'), log2_h = (size_t)(words[3][0] - '0');
    int counted = words[4][0] - '0';
    unsigned refused;
    switch (words[1][0]) {
    case 't': refused = transform_all(log2_w, log2_h, 0, counted); break;
    case 'i': refused = transform_all(log2_w, log2_h, 1, counted); break;
    case 's': refused = scale_all(log2_w, counted); break;
    case 'f': refused = code_all(log2_w, 0, counted); break;
    case 'g': refused = code_all(log2_w, 1, counted); break;
    case 'w': refused = list_all(log2_w, 0, counted); break;
    case 'r': refused = list_all(log2_w, 1, counted); break;
    default: refused = quantise_all(log2_w, counted);
    }

    char line[17];
    for (int i = 0; i < 16; i++) line[i] = "0123456789abcdef"[sum >> (60 - 4 * i) & 15];
    line[16] = '\n';
    system_call(1, 1, (long)line, sizeof line);
    for (;;) system_call(231, refused, 0, 0);
}
