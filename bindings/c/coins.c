/*
 * Tries clockivy_coins.h: clockivy_draw_below at its edges, with sources whose words
 * are known, that fail at some word, or that are of no use; every refusal of
 * clockivy_draw_bid and clockivy_draw_sheets, and what each leaves; and that drawn bids
 * and sheets, of all numbers of parties and either way, open to what was split and to
 * whole sheets.
 */
#include "check.h"
#include "clockivy_coins.h"
#include "field.h"

enum {
    K = 2,
    MAX_N = CLOCKIVY_MAX_PARTIES,
    TABLE = CLOCKIVY_TABLE_LEN(K),
    SHEETS = 4,
    MAX_SHEETS_LEN = SHEETS * CLOCKIVY_SHEET_LEN(CLOCKIVY_ROUNDS_7),
    DRAWS = 4096 /* from the system at each limit */
};

#define POWER(exponent) ((uint64_t)1 << (exponent))

static const uint64_t table[TABLE] = {CLOCKIVY_MAX_AMOUNT, 5, 0, 4};

/* A source of one word again and again, which may fail at some word. */
struct fixed {
    uint64_t word;
    unsigned long asked;
    unsigned long fails_at; /* counted from 1; 0 for never */
};

static int fixed_source(void *state, uint64_t *word)
{
    struct fixed *const fixed = (struct fixed *)state;

    fixed->asked++;
    if (fixed->asked == fixed->fails_at)
        return 0;
    *word = fixed->word;
    return 1;
}

/* The system's words, but for one at which it fails and some that are 0. */
struct faulty {
    unsigned long asked;
    unsigned long fails_at; /* counted from 1; 0 for never */
    unsigned long zeros_from;
    unsigned long zeros_to; /* the last; 0 for none */
};

static int faulty_source(void *state, uint64_t *word)
{
    struct faulty *const faulty = (struct faulty *)state;

    faulty->asked++;
    if (faulty->asked == faulty->fails_at)
        return 0;
    *word = 0;
    if (faulty->asked >= faulty->zeros_from && faulty->asked <= faulty->zeros_to)
        return 1;
    return clockivy_system_source(NULL, word);
}

/* A list of words. */
static int listed_source(void *state, uint64_t *word)
{
    const uint64_t **const next = (const uint64_t **)state;

    *word = *(*next)++;
    return 1;
}

static int cases;

/* From a source of this word alone, this one is drawn at once. */
static void drawn_as(uint64_t word, uint64_t limit, uint64_t expected)
{
    struct fixed fixed = {0, 0, 0};
    uint64_t found = 77;

    fixed.word = word;
    check(clockivy_draw_below(fixed_source, &fixed, limit, &found) && found == expected,
          "another word is drawn");
    check(fixed.asked == 1, "a word that is of use is drawn again");
    cases++;
}

/* None is drawn, after so many words, and nothing is written. */
static void not_drawn(uint64_t word, uint64_t limit, unsigned long fails_at,
                      unsigned long asked)
{
    struct fixed fixed = {0, 0, 0};
    uint64_t found = 77;

    fixed.word = word;
    fixed.fails_at = fails_at;
    check(!clockivy_draw_below(fixed_source, &fixed, limit, &found) && found == 77,
          "a word is drawn that should not be");
    check(fixed.asked == asked, "the source is asked too often, or too seldom");
    cases++;
}

static void try_below(void)
{
    static const uint64_t listed[] = {UINT64_MAX, POWER(61) - 1, 3 * POWER(61) + 5, 6};
    const uint64_t *next = listed;
    uint64_t found = 77;
    int exponent;

    not_drawn(0, 0, 0, 0);
    drawn_as(UINT64_MAX, 1, 0);
    not_drawn(UINT64_MAX, 1, 1, 1);
    drawn_as(UINT64_MAX, 2, 1);
    for (exponent = 2; exponent <= 63; exponent++) {
        const uint64_t power = POWER(exponent);

        /* All ones are the last word below a power, and never below one less. */
        drawn_as(UINT64_MAX, power, power - 1);
        drawn_as(UINT64_MAX - 1, power - 1, power - 2);
        not_drawn(UINT64_MAX, power - 1, 0, CLOCKIVY_TRIES);
        drawn_as(power, power + 1, power);
        not_drawn(power + 1, power + 1, 0, CLOCKIVY_TRIES);
        drawn_as(0, power, 0);
        not_drawn(0, power, 1, 1);
    }
    drawn_as(UINT64_MAX - 1, UINT64_MAX, UINT64_MAX - 1);
    not_drawn(UINT64_MAX, UINT64_MAX, 0, CLOCKIVY_TRIES);
    not_drawn(UINT64_MAX, UINT64_MAX, 5, 5);
    drawn_as(UINT64_MAX - 1, CLOCKIVY_PRIME, CLOCKIVY_PRIME - 1);
    not_drawn(UINT64_MAX, CLOCKIVY_PRIME, 0, CLOCKIVY_TRIES);
    /* The prime is left out twice, and then the low bits of the next word are taken. */
    check(clockivy_draw_below(listed_source, &next, CLOCKIVY_PRIME, &found) && found == 5
          && next == listed + 3, "another word is drawn");
}

/* The system's words differ, and come to every word below a small limit. */
static void try_system(void)
{
    uint64_t limit;
    uint64_t word;
    uint64_t next;
    int i;

    check(clockivy_system_source(NULL, &word) && clockivy_system_source(NULL, &next)
          && word != next, "the system has no coins");
    for (limit = 1; limit <= 9; limit++) {
        unsigned seen = 0;

        for (i = 0; i < DRAWS; i++) {
            check(clockivy_draw_below(clockivy_system_source, NULL, limit, &word)
                  && word < limit, "a word is drawn that is not below the limit");
            seen |= 1u << word;
        }
        check(seen == (1u << limit) - 1, "a word below the limit is never drawn");
    }
}

static void try_wipe(void)
{
    unsigned char bytes[16];
    size_t len;
    size_t i;

    for (len = 0; len < sizeof bytes; len++) {
        memset(bytes, 0xA5, sizeof bytes);
        clockivy_wipe(bytes, len);
        for (i = 0; i < sizeof bytes; i++)
            check(bytes[i] == (i < len ? 0 : 0xA5), "too much or too little is wiped");
    }
}

static uint64_t shares[MAX_N * TABLE];
static uint64_t sheets[MAX_N * MAX_SHEETS_LEN];

/* Whether every word is this one. */
static int all_are(const uint64_t *words, size_t len, uint64_t word)
{
    size_t i;

    for (i = 0; i < len; i++)
        if (words[i] != word)
            return 0;
    return 1;
}

/* A bid that is not drawn: the shares are as they were, or blank from 5 on. */
static void no_bid(uint64_t n, uint64_t k, const uint64_t *amounts, size_t table_len,
                   size_t shares_len, clockivy_source source, void *state, uint64_t number)
{
    const uint64_t left = number >= CLOCKIVY_COIN_OUT_OF_RANGE ? UINT64_MAX : 88;
    size_t i;

    for (i = 0; i < MAX_N * TABLE; i++)
        shares[i] = 88;
    check(clockivy_draw_bid(n, k, amounts, table_len, shares, shares_len, source, state)
          == number, "a bid is drawn, or refused with another number");
    check(all_are(shares, shares_len, left), "a refused bid has left something else");
    check(all_are(shares + shares_len, MAX_N * TABLE - shares_len, 88),
          "a refused bid has written past the shares");
    cases++;
}

static void try_bids(void)
{
    enum { N = 5, T = CLOCKIVY_THRESHOLD(N), LEN = N * TABLE };
    static const uint64_t large[TABLE] = {CLOCKIVY_MAX_AMOUNT + 1, 5, 0, 4};
    static const uint64_t rising[TABLE] = {4, 5, 0, 4};
    struct fixed fixed = {0, 0, 0};
    struct faulty faulty = {0, 0, 1, TABLE * T - 1};
    unsigned long i;

    no_bid(2, K, large, 0, 0, fixed_source, &fixed, CLOCKIVY_OUT_OF_RANGE);
    no_bid(10, K, large, 0, 0, fixed_source, &fixed, CLOCKIVY_OUT_OF_RANGE);
    no_bid(N, 0, large, 0, 0, fixed_source, &fixed, CLOCKIVY_OUT_OF_RANGE);
    no_bid(N, POWER(63) + K, large, TABLE, LEN, fixed_source, &fixed, CLOCKIVY_OUT_OF_RANGE);
    no_bid(N, CLOCKIVY_MAX_PRICES + 1, large, TABLE, LEN, fixed_source, &fixed,
           CLOCKIVY_OUT_OF_RANGE);
    no_bid(N, K, large, TABLE - 1, LEN, fixed_source, &fixed, CLOCKIVY_WRONG_LENGTH);
    no_bid(N, K, large, TABLE, LEN - 1, fixed_source, &fixed, CLOCKIVY_WRONG_LENGTH);
    no_bid(N, K, large, TABLE, LEN + 1, fixed_source, &fixed, CLOCKIVY_WRONG_LENGTH);
    no_bid(N, K, large, TABLE, TABLE, fixed_source, &fixed, CLOCKIVY_WRONG_LENGTH);
    check(fixed.asked == 0, "coins are drawn for a call that is refused");
    no_bid(N, K, large, TABLE, LEN, clockivy_system_source, NULL, CLOCKIVY_AMOUNT_TOO_LARGE);
    no_bid(N, K, rising, TABLE, LEN, clockivy_system_source, NULL, CLOCKIVY_NOT_MONOTONE);

    /* Zeros are no coins, nor are all ones, of which the prime is never taken. */
    no_bid(N, K, table, TABLE, LEN, fixed_source, &fixed, CLOCKIVY_COIN_OUT_OF_RANGE);
    fixed.word = UINT64_MAX;
    no_bid(N, K, large, TABLE, LEN, fixed_source, &fixed, CLOCKIVY_COIN_OUT_OF_RANGE);
    for (i = 1; i <= TABLE * T; i++) {
        struct faulty fails = {0, 0, 0, 0};

        fails.fails_at = i;
        no_bid(N, K, table, TABLE, LEN, faulty_source, &fails, CLOCKIVY_COIN_OUT_OF_RANGE);
        check(fails.asked == i, "a source that has failed is asked again");
    }
    /* One coin that is not 0 is enough: by chance some are. */
    done(clockivy_draw_bid(N, K, table, TABLE, shares, LEN, faulty_source, &faulty),
         "draw_bid");
    check(faulty.asked == TABLE * T, "another number of coins is drawn");
}

/* Sheets that are not drawn: they are as they were, or blank where it is 5. */
static void no_sheets(uint64_t n, uint64_t k, uint64_t way, size_t len,
                      clockivy_source source, void *state, uint64_t number)
{
    const uint64_t left = number == CLOCKIVY_COIN_OUT_OF_RANGE ? UINT64_MAX : 88;
    size_t i;

    for (i = 0; i < MAX_N * MAX_SHEETS_LEN; i++)
        sheets[i] = 88;
    check(clockivy_draw_sheets(n, k, way, sheets, len, source, state) == number,
          "sheets are drawn, or refused with another number");
    check(all_are(sheets, len, left), "refused sheets have left something else");
    check(all_are(sheets + len, MAX_N * MAX_SHEETS_LEN - len, 88),
          "refused sheets have written past what was lent");
    cases++;
}

static void try_sheets(uint64_t way)
{
    enum { N = 5 };
    const uint64_t other = way == CLOCKIVY_ROUNDS_7 ? CLOCKIVY_ROUNDS_33 : CLOCKIVY_ROUNDS_7;
    const size_t len = N * clockivy_sheets_len(K, way);
    /* The words that the source is asked for at each probe; eight bytes make one. */
    const unsigned long each = (unsigned long)(CLOCKIVY_DEAL_WORDS_LEN(N)
        + (CLOCKIVY_DEAL_BYTES_LEN(N, way) + 7) / 8);
    struct fixed fixed = {0, 0, 0};
    unsigned long i;

    no_sheets(2, K, way, 0, fixed_source, &fixed, CLOCKIVY_OUT_OF_RANGE);
    no_sheets(10, K, way, len, fixed_source, &fixed, CLOCKIVY_OUT_OF_RANGE);
    no_sheets(N, 0, way, 0, fixed_source, &fixed, CLOCKIVY_OUT_OF_RANGE);
    no_sheets(N, CLOCKIVY_MAX_PRICES + 1, way, 0, fixed_source, &fixed, CLOCKIVY_OUT_OF_RANGE);
    no_sheets(N, K, way + 1, 0, fixed_source, &fixed, CLOCKIVY_OUT_OF_RANGE);
    no_sheets(N, K, way - 1, len, fixed_source, &fixed, CLOCKIVY_OUT_OF_RANGE);
    no_sheets(N, K, way, 0, fixed_source, &fixed, CLOCKIVY_WRONG_LENGTH);
    no_sheets(N, K, way, len - 1, fixed_source, &fixed, CLOCKIVY_WRONG_LENGTH);
    no_sheets(N, K, way, len + 1, fixed_source, &fixed, CLOCKIVY_WRONG_LENGTH);
    no_sheets(N, K, way, len / N, fixed_source, &fixed, CLOCKIVY_WRONG_LENGTH);
    no_sheets(N, K, other, len, fixed_source, &fixed, CLOCKIVY_WRONG_LENGTH);
    check(fixed.asked == 0, "coins are drawn for a call that is refused");
    no_sheets(N, K, way, len, fixed_source, &fixed, CLOCKIVY_COIN_OUT_OF_RANGE);
    check(fixed.asked == each, "a probe of zeros is not the last");
    fixed.word = UINT64_MAX;
    no_sheets(N, K, way, len, fixed_source, &fixed, CLOCKIVY_COIN_OUT_OF_RANGE);
    for (i = 1; i <= SHEETS * each; i++) {
        struct faulty fails = {0, 0, 0, 0};

        fails.fails_at = i;
        no_sheets(N, K, way, len, faulty_source, &fails, CLOCKIVY_COIN_OUT_OF_RANGE);
        check(fails.asked == i, "a source that has failed is asked again");
    }
    /* Zeros for one of the probes, and all but one of its words. */
    for (i = 0; i < SHEETS; i++) {
        struct faulty zeros = {0, 0, 0, 0};

        zeros.zeros_from = i * each + 1;
        zeros.zeros_to = (i + 1) * each;
        no_sheets(N, K, way, len, faulty_source, &zeros, CLOCKIVY_COIN_OUT_OF_RANGE);
        zeros.asked = 0;
        zeros.zeros_from++;
        done(clockivy_draw_sheets(N, K, way, sheets, len, faulty_source, &zeros),
             "draw_sheets");
        check(zeros.asked == SHEETS * each, "another number of words is drawn");
    }
}

/* What t + 1 shares open to, of parties from first on; so many words lie between. */
static uint64_t opened(const uint64_t *words, size_t further, uint64_t first, uint64_t t)
{
    uint64_t value = 0;
    uint64_t i;
    uint64_t j;

    for (i = first; i <= first + t; i++) {
        uint64_t weight = 1;

        for (j = first; j <= first + t; j++)
            if (j != i)
                weight = times(weight, times(j, inverse(plus(j, CLOCKIVY_PRIME - i))));
        value = plus(value, times(weight, words[(i - 1) * further]));
    }
    return value;
}

static uint8_t opened_byte(const uint64_t *words, size_t further, uint64_t first, uint64_t t)
{
    uint8_t value = 0;
    uint64_t i;
    uint64_t j;

    for (i = first; i <= first + t; i++) {
        uint8_t weight = 1;

        for (j = first; j <= first + t; j++)
            if (j != i) {
                weight = byte_times(weight, (uint8_t)j);
                weight = byte_times(weight, byte_inverse((uint8_t)(i ^ j)));
            }
        value ^= byte_times(weight, (uint8_t)words[(i - 1) * further]);
    }
    return value;
}

/* A sheet opens to a mask below 2^58, the bits of the mask, and triples. */
static void check_sheet(const uint64_t *sheet, uint64_t way, uint64_t first, uint64_t t,
                        uint64_t mask)
{
    const size_t len = CLOCKIVY_SHEET_LEN(way);
    const size_t further = clockivy_sheets_len(K, way);
    size_t i;

    check(opened(sheet, further, first, t) == mask && mask < CLOCKIVY_MASK_LIMIT,
          "the masks do not open");
    for (i = 1; i <= 33; i++)
        check(opened_byte(sheet + i, further, first, t) == ((mask >> (i - 1)) & 1),
              "a bit of the mask is another");
    for (i = 34; i < len; i += 3)
        check(byte_times(opened_byte(sheet + i, further, first, t),
                         opened_byte(sheet + i + 1, further, first, t))
              == opened_byte(sheet + i + 2, further, first, t), "a triple is none");
}

/* Whichever t + 1 neighbours open, what they open is the same. */
static void try_opening(uint64_t n, uint64_t way)
{
    const uint64_t t = CLOCKIVY_THRESHOLD(n);
    const size_t len = CLOCKIVY_SHEET_LEN(way);
    const size_t further = clockivy_sheets_len(K, way);
    uint64_t masks[SHEETS];
    uint64_t first;
    size_t i;
    size_t j;

    done(clockivy_draw_bid(n, K, table, TABLE, shares, (size_t)n * TABLE,
                           clockivy_system_source, NULL), "draw_bid");
    done(clockivy_draw_sheets(n, K, way, sheets, (size_t)n * further,
                              clockivy_system_source, NULL), "draw_sheets");
    for (i = 0; i < SHEETS; i++) {
        masks[i] = opened(sheets + i * len, further, 1, t);
        for (j = 0; j < i; j++)
            check(masks[i] != masks[j], "two probes have one mask");
    }
    for (first = 1; first + t <= n; first++) {
        for (i = 0; i < TABLE; i++)
            check(opened(shares + i, TABLE, first, t) == table[i], "a bid is another");
        for (i = 0; i < SHEETS; i++)
            check_sheet(sheets + i * len, way, first, t, masks[i]);
        cases++;
    }
}

int main(void)
{
    uint64_t n;

    try_below();
    try_system();
    try_wipe();
    try_bids();
    try_sheets(CLOCKIVY_ROUNDS_33);
    try_sheets(CLOCKIVY_ROUNDS_7);
    for (n = 3; n <= MAX_N; n++) {
        try_opening(n, CLOCKIVY_ROUNDS_33);
        try_opening(n, CLOCKIVY_ROUNDS_7);
    }
    printf("%d cases of drawing\n", cases);
    return EXIT_SUCCESS;
}
