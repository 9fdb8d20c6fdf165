/*
 * Tries clockivy_split_entry: that its refusals change nothing, and that entries
 * in another order come to what clockivy_split writes.
 */
#include "check.h"

/* Five parties and three prices: six entries, each with two coins. */
enum { N = 5, OWN = 4, K = 3, TABLE = 2 * K, T = CLOCKIVY_THRESHOLD(N) };

#define LENGTHS TABLE, T, TABLE
#define AMOUNTS {9, 5, 5, 0, 2, 7}
#define COINS {11, 12}

/* Calls that are refused. A slice may have one word more. */
static const struct {
    uint64_t n, own, k, entry;
    size_t table_len, coins_len, shares_len;
    uint64_t table[TABLE + 1];
    uint64_t coins[T + 1];
    uint64_t reply;
} refused[] = {
    {2, 1, K, 1, LENGTHS, AMOUNTS, COINS, CLOCKIVY_OUT_OF_RANGE},
    {10, 1, K, 1, LENGTHS, AMOUNTS, COINS, CLOCKIVY_OUT_OF_RANGE},
    {N, 0, K, 1, LENGTHS, AMOUNTS, COINS, CLOCKIVY_OUT_OF_RANGE},
    {N, N + 1, K, 1, LENGTHS, AMOUNTS, COINS, CLOCKIVY_OUT_OF_RANGE},
    {N, OWN, 0, 1, LENGTHS, AMOUNTS, COINS, CLOCKIVY_OUT_OF_RANGE},
    {N, OWN, CLOCKIVY_MAX_PRICES + 1, 1, LENGTHS, AMOUNTS, COINS, CLOCKIVY_OUT_OF_RANGE},
    {N, OWN, ((uint64_t)1 << 63) + K, 1, LENGTHS, AMOUNTS, COINS, CLOCKIVY_OUT_OF_RANGE},
    {N, OWN, K, 0, LENGTHS, AMOUNTS, COINS, CLOCKIVY_OUT_OF_RANGE},
    {N, OWN, K, TABLE + 1, LENGTHS, AMOUNTS, COINS, CLOCKIVY_OUT_OF_RANGE},
    {N, OWN, K, ((uint64_t)1 << 32) + 1, LENGTHS, AMOUNTS, COINS, CLOCKIVY_OUT_OF_RANGE},
    {N, OWN, K, UINT64_MAX, LENGTHS, AMOUNTS, COINS, CLOCKIVY_OUT_OF_RANGE},
    {N, OWN, K, 1, TABLE - 1, T, TABLE, AMOUNTS, COINS, CLOCKIVY_WRONG_LENGTH},
    {N, OWN, K, 1, TABLE + 1, T, TABLE, AMOUNTS, COINS, CLOCKIVY_WRONG_LENGTH},
    {N, OWN, K, 1, TABLE, 0, TABLE, AMOUNTS, COINS, CLOCKIVY_WRONG_LENGTH},
    {N, OWN, K, 1, TABLE, T - 1, TABLE, AMOUNTS, COINS, CLOCKIVY_WRONG_LENGTH},
    {N, OWN, K, 1, TABLE, T + 1, TABLE, AMOUNTS, COINS, CLOCKIVY_WRONG_LENGTH},
    {N, OWN, K, 1, TABLE, T, TABLE - 1, AMOUNTS, COINS, CLOCKIVY_WRONG_LENGTH},
    {N, OWN, K, 1, TABLE, T, TABLE + 1, AMOUNTS, COINS, CLOCKIVY_WRONG_LENGTH},
    {N, OWN, K, 1, LENGTHS, AMOUNTS, {CLOCKIVY_PRIME, 12}, CLOCKIVY_COIN_OUT_OF_RANGE},
    {N, OWN, K, 6, LENGTHS, AMOUNTS, {11, UINT64_MAX}, CLOCKIVY_COIN_OUT_OF_RANGE},
    /* Amounts that are not the entry's are judged too. */
    {N, OWN, K, 6, LENGTHS, {CLOCKIVY_MAX_AMOUNT + 1, 5, 5, 0, 2, 7}, COINS,
     CLOCKIVY_AMOUNT_TOO_LARGE},
    {N, OWN, K, 1, LENGTHS, {9, 5, 5, 0, 2, CLOCKIVY_MAX_AMOUNT + 1}, COINS,
     CLOCKIVY_AMOUNT_TOO_LARGE},
    {N, OWN, K, 6, LENGTHS, {9, 5, 6, 0, 2, 7}, COINS, CLOCKIVY_NOT_MONOTONE},
    {N, OWN, K, 1, LENGTHS, {9, 5, 5, 3, 2, 7}, COINS, CLOCKIVY_NOT_MONOTONE},
    /* The first that applies. */
    {N, OWN, K, 0, TABLE, T + 1, TABLE, AMOUNTS, {CLOCKIVY_PRIME}, CLOCKIVY_OUT_OF_RANGE},
    {N, OWN, K, 1, TABLE, T + 1, TABLE, {0, UINT64_MAX}, {CLOCKIVY_PRIME},
     CLOCKIVY_WRONG_LENGTH},
    {N, OWN, K, 1, LENGTHS, {0, UINT64_MAX}, {CLOCKIVY_PRIME}, CLOCKIVY_COIN_OUT_OF_RANGE},
    {N, OWN, K, 1, LENGTHS, {0, UINT64_MAX}, COINS, CLOCKIVY_AMOUNT_TOO_LARGE}
};

enum { REFUSED = sizeof refused / sizeof refused[0] };

static int wrong;

static void try_refusals(void)
{
    uint64_t before[TABLE + 1];
    size_t i;

    clockivy_blank(before, TABLE + 1);
    for (i = 0; i < REFUSED; i++) {
        uint64_t shares[TABLE + 1];
        uint64_t reply;

        clockivy_blank(shares, TABLE + 1);
        reply = clockivy_split_entry(refused[i].n, refused[i].own, refused[i].k,
                                     refused[i].entry, refused[i].table,
                                     refused[i].table_len, refused[i].coins,
                                     refused[i].coins_len, shares, refused[i].shares_len);
        if (reply != refused[i].reply) {
            fprintf(stderr, "case %d: %s, and not %s\n", (int)i + 1,
                    clockivy_refusal_text(reply), clockivy_refusal_text(refused[i].reply));
            wrong = 1;
        }
        if (memcmp(shares, before, sizeof shares) != 0) {
            fprintf(stderr, "case %d has changed the shares\n", (int)i + 1);
            wrong = 1;
        }
    }
}

/* After each entry its place holds the share, and those not yet written stay. */
static void try_another_order(void)
{
    static const uint64_t table[TABLE] = AMOUNTS;
    static const uint64_t order[TABLE] = {5, 3, 6, 1, 2, 4};
    uint64_t coins[CLOCKIVY_COINS_LEN(N, K)];
    uint64_t whole[TABLE];
    uint64_t expected[TABLE];
    uint64_t shares[TABLE];
    size_t i;

    for (i = 0; i < CLOCKIVY_COINS_LEN(N, K); i++)
        coins[i] = CLOCKIVY_PRIME - 1 - i * i;
    done(clockivy_split(N, OWN, K, table, TABLE, coins, CLOCKIVY_COINS_LEN(N, K),
                        whole, TABLE), "split");
    clockivy_blank(expected, TABLE);
    clockivy_blank(shares, TABLE);
    for (i = 0; i < TABLE; i++) {
        const size_t place = order[i] - 1;

        expected[place] = whole[place];
        if (clockivy_split_entry(N, OWN, K, order[i], table, TABLE, coins + place * T, T,
                                 shares, TABLE) != CLOCKIVY_DONE
            || memcmp(shares, expected, sizeof shares) != 0) {
            fprintf(stderr, "entry %d is not as split\n", (int)order[i]);
            wrong = 1;
        }
    }
}

int main(void)
{
    try_refusals();
    try_another_order();
    if (wrong)
        return EXIT_FAILURE;
    printf("%d refusals, %d entries of a bid\n", (int)REFUSED, (int)TABLE);
    return EXIT_SUCCESS;
}
