/*
 * Times clockivy_deal beside libgfshare, a C library that shares bytes:
 *
 *   make gfshare
 *
 * A sheet holds a party's shares of 126 bytes, or of 219 for 7 rounds a probe, each
 * made from t coefficients. libgfshare makes as many: one share of a secret of so
 * many bytes, where t + 1 shares give the secret back. Its coefficients and those of
 * the sheet are drawn before the clock starts. clockivy_deal does more than that: it
 * judges its lengths and coins, shares the mask as an amount, and multiplies alpha
 * and beta of 31 triples, or of 62.
 *
 * In each repeat the two take turns, one short batch of calls after the other,
 * and the shortest batch of each is kept: the one that the rest of the machine
 * disturbed least. Their ratio, the time of clockivy_deal divided by that of
 * libgfshare, is the figure of the repeat. The table has the middle figure of all
 * repeats, the least and the greatest.
 *
 * The shares of the two cannot be compared. libgfshare multiplies modulo the
 * polynomial 11Dh and the auction modulo 11Bh, so the same coefficients come to
 * other shares. Each side is checked by itself: clockivy_deal replies 0 and writes
 * every word of the sheet, and of libgfshare's shares t + 1 give the secret back.
 */
#define _POSIX_C_SOURCE 199309L /* for clock_gettime */

#include <time.h>

#include <libgfshare.h>

#include "check.h"

enum {
    OWN = 2, /* the party whose shares are timed */
    MAX_N = CLOCKIVY_MAX_PARTIES,
    MAX_SHEET = CLOCKIVY_SHEET_LEN(CLOCKIVY_ROUNDS_7),
    MAX_BYTES = MAX_SHEET - 1, /* shared in a sheet, after the mask */
    REPEATS = 31,
    BATCHES = 25 /* of each side in a repeat */
};

/* The least time of a batch, in seconds, and the most calls in one. */
static const double least_batch = 1e-4;
static const long most_calls = 1L << 20;

/* What the calls are given and lent. */
struct inputs {
    uint64_t n;
    uint64_t way;
    size_t sheet_len;
    unsigned int shared; /* bytes in a sheet */
    uint64_t words[CLOCKIVY_DEAL_WORDS_LEN(MAX_N)];
    uint8_t bytes[CLOCKIVY_DEAL_BYTES_LEN(MAX_N, CLOCKIVY_ROUNDS_7)];
    uint64_t sheet[MAX_SHEET];
    gfshare_ctx *sharing;
    unsigned char share[MAX_BYTES];
};

/* Marsaglia's xorshift64, with a fixed seed: the times do not ask for more. */
static uint64_t draw(void)
{
    static uint64_t state = ((uint64_t)0x9E3779B9 << 32) | 0x7F4A7C15;

    state ^= state << 13;
    state ^= state >> 7;
    state ^= state << 17;
    return state;
}

static void draw_bytes(unsigned char *bytes, unsigned int count)
{
    unsigned int i;

    for (i = 0; i < count; i++)
        bytes[i] = (unsigned char)(draw() >> 56);
}

/* The two calls that are timed. */

static void deal(struct inputs *inputs)
{
    const uint64_t n = inputs->n;
    const uint64_t way = inputs->way;

    done(clockivy_deal(n, OWN, way, inputs->words, CLOCKIVY_DEAL_WORDS_LEN(n),
                       inputs->bytes, CLOCKIVY_DEAL_BYTES_LEN(n, way),
                       inputs->sheet, inputs->sheet_len), "clockivy_deal");
}

static void share(struct inputs *inputs)
{
    gfshare_ctx_enc_getshare(inputs->sharing, OWN - 1, inputs->share);
}

/* Draws what both are given. */
static void draw_inputs(struct inputs *inputs, uint64_t n, uint64_t way,
                        unsigned char *points, unsigned char *secret)
{
    const uint64_t t = CLOCKIVY_THRESHOLD(n);
    uint64_t i;

    inputs->n = n;
    inputs->way = way;
    inputs->sheet_len = CLOCKIVY_SHEET_LEN(way);
    inputs->shared = (unsigned int)inputs->sheet_len - 1;
    inputs->words[0] = draw() % CLOCKIVY_MASK_LIMIT;
    for (i = 1; i <= t; i++)
        inputs->words[i] = draw() % CLOCKIVY_PRIME;
    draw_bytes(inputs->bytes, (unsigned int)CLOCKIVY_DEAL_BYTES_LEN(n, way));

    draw_bytes(secret, inputs->shared);
    inputs->sharing = gfshare_ctx_init_enc(points, (unsigned int)n, (unsigned char)(t + 1),
                                           inputs->shared);
    check(inputs->sharing != NULL, "libgfshare makes no sharing");
    gfshare_ctx_enc_setsecret(inputs->sharing, secret);
}

/* A place that was not written is no share. */
static void check_deal(struct inputs *inputs)
{
    size_t i;

    clockivy_blank(inputs->sheet, inputs->sheet_len);
    deal(inputs);
    check(inputs->sheet[0] < CLOCKIVY_PRIME, "no share of the mask was dealt");
    for (i = 1; i < inputs->sheet_len; i++)
        check(inputs->sheet[i] <= 255, "a share of a byte was not dealt");
}

/* The share that is timed and t others give the secret back. */
static void check_share(struct inputs *inputs, unsigned char *points,
                        const unsigned char *secret)
{
    const unsigned int needed = (unsigned int)CLOCKIVY_THRESHOLD(inputs->n) + 1;
    gfshare_ctx *opening = gfshare_ctx_init_dec(points, needed, inputs->shared);
    unsigned char opened[MAX_BYTES];
    unsigned int i;

    check(opening != NULL, "libgfshare makes no opening");
    for (i = 0; i < needed; i++) {
        unsigned char other[MAX_BYTES];

        gfshare_ctx_enc_getshare(inputs->sharing, (unsigned char)i, other);
        gfshare_ctx_dec_giveshare(opening, (unsigned char)i, other);
    }
    memset(inputs->share, 0, sizeof inputs->share);
    share(inputs);
    gfshare_ctx_dec_giveshare(opening, OWN - 1, inputs->share);
    memset(opened, 0, sizeof opened);
    gfshare_ctx_dec_extract(opening, opened);
    gfshare_ctx_free(opening);
    check(memcmp(opened, secret, inputs->shared) == 0,
          "libgfshare's shares do not give the secret back");
}

/* The time of a number of calls, in seconds. */
static double batch(void (*run)(struct inputs *), struct inputs *inputs, long calls)
{
    struct timespec start;
    struct timespec end;
    long i;

    check(clock_gettime(CLOCK_MONOTONIC, &start) == 0, "there is no clock");
    for (i = 0; i < calls; i++)
        run(inputs);
    check(clock_gettime(CLOCK_MONOTONIC, &end) == 0, "there is no clock");
    return (double)(end.tv_sec - start.tv_sec) + (double)(end.tv_nsec - start.tv_nsec) * 1e-9;
}

/* The shorter of a time and of a further batch. */
static double shorter(double least, void (*run)(struct inputs *), struct inputs *inputs,
                      long calls)
{
    const double time = batch(run, inputs, calls);

    return time < least ? time : least;
}

static int by_size(const void *left, const void *right)
{
    const double a = *(const double *)left;
    const double b = *(const double *)right;

    return (a > b) - (a < b);
}

/* Sorts and gives the middle one. */
static double middle(double figures[REPEATS])
{
    qsort(figures, REPEATS, sizeof figures[0], by_size);
    return figures[REPEATS / 2];
}

/* A column: a time in a unit that suits it. */
static void print_time(double seconds)
{
    if (seconds < 1e-6)
        printf(" %.0f ns |", seconds * 1e9);
    else
        printf(" %.2f us |", seconds * 1e6);
}

/* A column: a ratio, with three digits. */
static void print_ratio(double ratio)
{
    printf(" %.*f |", ratio < 10 ? 2 : ratio < 100 ? 1 : 0, ratio);
}

/* A row of the table. */
static void measure(struct inputs *inputs)
{
    double dealing[REPEATS];
    double sharing[REPEATS];
    double ratios[REPEATS];
    long calls = 1;
    int i;
    int j;

    while (calls < most_calls && batch(share, inputs, calls) < least_batch)
        calls *= 2;
    for (i = 0; i < REPEATS; i++) {
        dealing[i] = batch(deal, inputs, calls);
        sharing[i] = batch(share, inputs, calls);
        for (j = 1; j < BATCHES; j++) {
            dealing[i] = shorter(dealing[i], deal, inputs, calls);
            sharing[i] = shorter(sharing[i], share, inputs, calls);
        }
        check(sharing[i] > 0, "the clock is too coarse");
        ratios[i] = dealing[i] / sharing[i];
    }
    printf("| %d |", (int)inputs->n);
    print_time(middle(dealing) / (double)calls);
    print_time(middle(sharing) / (double)calls);
    print_ratio(middle(ratios));
    print_ratio(ratios[0]);
    print_ratio(ratios[REPEATS - 1]);
    printf("\n");
}

/* The table of a way. */
static void print_table(uint64_t way)
{
    uint64_t n;

    printf("A party's sheet for %d rounds a probe beside a share of %d bytes, one thread\n\n",
           (int)way, CLOCKIVY_SHEET_LEN(way) - 1);
    printf("| parties | clockivy_deal | libgfshare | ratio | least | greatest |\n");
    printf("|---:|---:|---:|---:|---:|---:|\n");
    for (n = 3; n <= MAX_N; n += 2) {
        unsigned char points[MAX_N] = {1, 2, 3, 4, 5, 6, 7, 8, 9};
        unsigned char secret[MAX_BYTES];
        struct inputs inputs;

        draw_inputs(&inputs, n, way, points, secret);
        check_deal(&inputs);
        check_share(&inputs, points, secret);
        measure(&inputs);
        gfshare_ctx_free(inputs.sharing);
    }
}

int main(void)
{
    gfshare_fill_rand = draw_bytes;
    print_table(CLOCKIVY_ROUNDS_33);
    printf("\n");
    print_table(CLOCKIVY_ROUNDS_7);
    return EXIT_SUCCESS;
}
