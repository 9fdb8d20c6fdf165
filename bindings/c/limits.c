/*
 * Tries clockivy_probe_limit, and the count and length of the sheets, on numbers
 * around powers of two; clockivy_party_has_bid on every place of the roll and on
 * numbers past it, up to the largest there is; the lengths that go by the way, and
 * those of messages in any round; where the fields of a record stand; and that no
 * session is opened or resumed and nothing is drawn, on either way, with a library of
 * another version, for which some calls here stand in. It is not linked with the
 * library.
 */
#include "check.h"
#include "clockivy_coins.h"

#define POWER(exponent) ((uint64_t)1 << (exponent))

static const struct {
    uint64_t k;
    size_t limit;
} cases[] = {
    {0, 0}, {1, 1}, {2, 2}, {3, 2}, {4, 3}, {7, 3}, {8, 4},
    {255, 8}, {256, 9}, {1023, 10}, {1024, 11},
    {POWER(32) - 1, 32}, {POWER(32), 33},
    {POWER(63) - 1, 63}, {POWER(63), 64}, {UINT64_MAX, 64}
};

/* Numbers that no place of the roll has. */
static const uint64_t past[] = {
    1024, 1025, 1087, 1088, 2047, 2048, POWER(16),
    POWER(32), POWER(32) + 1, POWER(38), POWER(38) + 1,
    POWER(63), POWER(63) + 1, UINT64_MAX - 1, UINT64_MAX
};

/* Numbers that no way has. */
static const uint64_t no_ways[] = {
    0, 1, 6, 8, 32, 34, POWER(32) + 7, POWER(32) + 33, POWER(63) + 7, UINT64_MAX
};

enum {
    CASES = sizeof cases / sizeof cases[0],
    PAST = sizeof past / sizeof past[0],
    NO_WAYS = sizeof no_ways / sizeof no_ways[0],
    PLACES = 64 * CLOCKIVY_ROLL_LEN
};

/* A record, and words behind it. No word after the roll is one of the roll. */
static struct {
    clockivy_party party;
    uint64_t after[4];
} kept;

static int wrong;

static void try_limits(void)
{
    size_t i;

    for (i = 0; i < CASES; i++) {
        const size_t limit = clockivy_probe_limit(cases[i].k);

        if (limit != cases[i].limit) {
            fprintf(stderr, "case %d: %d probes, not %d\n",
                    (int)i + 1, (int)limit, (int)cases[i].limit);
            wrong = 1;
        }
        if (clockivy_sheet_count(cases[i].k) != 2 * cases[i].limit
            || clockivy_sheets_len(cases[i].k, CLOCKIVY_ROUNDS_33) != 254 * cases[i].limit
            || clockivy_sheets_len(cases[i].k, CLOCKIVY_ROUNDS_7) != 440 * cases[i].limit) {
            fprintf(stderr, "case %d: not the sheets of two searches\n", (int)i + 1);
            wrong = 1;
        }
    }
}

/* The fields are the words of the record, in their order. */
static void try_fields(void)
{
    uint64_t words[CLOCKIVY_RECORD_LEN];
    const clockivy_party *party = &kept.party;
    int i;

    for (i = 0; i < CLOCKIVY_RECORD_LEN; i++)
        words[i] = (uint64_t)i + 1;
    memcpy(&kept.party, words, sizeof words);
    if (party->n != 1 || party->own != 2 || party->k != 3 || party->bids != 4
        || party->lo != 5 || party->hi != 6 || party->probes != 7 || party->round != 8
        || party->sum != 9 || party->carry != 10 || party->roll[0] != 11
        || party->roll[CLOCKIVY_ROLL_LEN - 1] != 26 || party->search != 27
        || party->first != 28 || party->first_probes != 29
        || party->demand != 30 || party->supply != 31 || party->last != 32
        || party->pairs[0] != 33 || party->pairs[CLOCKIVY_PAIRS_LEN - 1] != 64) {
        fprintf(stderr, "a field of the record is in another place\n");
        wrong = 1;
    }
}

/* Lengths that go by the way are constant, and 0 for a way that there is not. */
static void try_ways(void)
{
    static const uint64_t sheet[CLOCKIVY_SHEET_LEN(CLOCKIVY_ROUNDS_33)] = {0};
    static const uint64_t longer[CLOCKIVY_SHEET_LEN(CLOCKIVY_ROUNDS_7)] = {0};
    static const uint8_t bytes[CLOCKIVY_DEAL_BYTES_LEN(9, CLOCKIVY_ROUNDS_33)] = {0};
    static const uint8_t more[CLOCKIVY_DEAL_BYTES_LEN(9, CLOCKIVY_ROUNDS_7)] = {0};
    size_t i;

    if (sizeof sheet != 127 * sizeof sheet[0] || sizeof longer != 220 * sizeof longer[0]
        || sizeof bytes != 566 || sizeof more != 1000
        || CLOCKIVY_DEAL_BYTES_LEN(3, CLOCKIVY_ROUNDS_33) != 188
        || CLOCKIVY_DEAL_BYTES_LEN(3, CLOCKIVY_ROUNDS_7) != 343
        || !clockivy_is_way(CLOCKIVY_ROUNDS_33) || !clockivy_is_way(CLOCKIVY_ROUNDS_7)) {
        fprintf(stderr, "a length of a way is another\n");
        wrong = 1;
    }
    for (i = 0; i < NO_WAYS; i++)
        if (clockivy_is_way(no_ways[i]) || CLOCKIVY_SHEET_LEN(no_ways[i]) != 0
            || CLOCKIVY_DEAL_BYTES_LEN(9, no_ways[i]) != 0
            || clockivy_sheets_len(UINT64_MAX, no_ways[i]) != 0
            || clockivy_message_len(no_ways[i], 1) != 0
            || clockivy_message_len(no_ways[i], 2) != 0) {
            fprintf(stderr, "what is no way has a length, %d\n", (int)i + 1);
            wrong = 1;
        }
}

/* A message is one word, but in rounds 2 to 6 of 7. */
static void try_messages(void)
{
    static const size_t words[] = {1, 1, 32, 16, 8, 4, 2};
    const uint64_t listed = sizeof words / sizeof words[0];
    size_t products = 0;
    uint64_t round;
    size_t i;

    for (round = 0; round < PLACES; round++) {
        const size_t len = clockivy_message_len(CLOCKIVY_ROUNDS_7, round);

        wrong |= len != (round < listed ? words[round] : 1) || len > CLOCKIVY_MAX_MESSAGE_LEN
            || clockivy_message_len(CLOCKIVY_ROUNDS_33, round) != 1;
        products += round > 1 && round < listed ? len : 0;
    }
    for (i = 0; i < PAST; i++)
        wrong |= clockivy_message_len(CLOCKIVY_ROUNDS_33, past[i]) != 1
            || clockivy_message_len(CLOCKIVY_ROUNDS_7, past[i]) != 1;
    /* Each of these words is of a product, for which a sheet has three. */
    wrong |= CLOCKIVY_SHEET_LEN(CLOCKIVY_ROUNDS_7) != 34 + 3 * products;
    if (wrong)
        fprintf(stderr, "a message has another length\n");
}

/* A library of the next version, of which no other call may be made. */

uint64_t clockivy_version(void)
{
    return CLOCKIVY_VERSION + 1;
}

uint64_t clockivy_open(uint64_t n, uint64_t own, uint64_t k, uint64_t last,
                       uint64_t *totals, size_t totals_len,
                       uint64_t *record, size_t record_len)
{
    (void)n, (void)own, (void)k, (void)last, (void)totals, (void)totals_len, (void)record;
    check(record_len == 0, "a library of another version was called");
    return CLOCKIVY_DONE;
}

uint64_t clockivy_split_entry(uint64_t n, uint64_t own, uint64_t k, uint64_t entry,
                              const uint64_t *table, size_t table_len,
                              const uint64_t *coins, size_t coins_len,
                              uint64_t *shares, size_t shares_len)
{
    (void)n, (void)own, (void)k, (void)entry, (void)table, (void)table_len;
    (void)coins, (void)coins_len, (void)shares;
    check(shares_len == 0, "a library of another version was called");
    return CLOCKIVY_DONE;
}

uint64_t clockivy_deal(uint64_t n, uint64_t own, uint64_t last,
                       const uint64_t *words, size_t words_len,
                       const uint8_t *bytes, size_t bytes_len,
                       uint64_t *sheet, size_t sheet_len)
{
    (void)n, (void)own, (void)last, (void)words, (void)words_len;
    (void)bytes, (void)bytes_len, (void)sheet;
    check(sheet_len == 0, "a library of another version was called");
    return CLOCKIVY_DONE;
}

/* Nothing is drawn for a library of another version. */
static int no_source(void *state, uint64_t *word)
{
    (void)state, (void)word;
    check(0, "something was drawn for a library of another version");
    return 0;
}

/* Drawing is 2, after 1, and nothing is written. */
static void try_drawing(uint64_t way)
{
    static const uint64_t table[2] = {5, 3};
    static uint64_t sheets[3 * 2 * CLOCKIVY_SHEET_LEN(CLOCKIVY_ROUNDS_7)];
    const size_t sheets_len = 3 * clockivy_sheets_len(1, way);
    uint64_t shares[3 * 2] = {0};
    size_t i;

    if (clockivy_draw_bid(3, 1, table, 2, shares, 6, no_source, NULL) != CLOCKIVY_WRONG_LENGTH
        || clockivy_draw_bid(2, 1, table, 2, shares, 6, no_source, NULL)
            != CLOCKIVY_OUT_OF_RANGE
        || clockivy_draw_sheets(3, 1, way, sheets, sheets_len, no_source, NULL)
            != CLOCKIVY_WRONG_LENGTH
        || clockivy_draw_sheets(2, 1, way, sheets, sheets_len, no_source, NULL)
            != CLOCKIVY_OUT_OF_RANGE)
        wrong = 1;
    for (i = 0; i < 6; i++)
        wrong |= shares[i] != 0;
    for (i = 0; i < sizeof sheets / sizeof sheets[0]; i++)
        wrong |= sheets[i] != 0;
    if (wrong)
        fprintf(stderr, "drawing for a library of another version is not refused\n");
}

/* It is 2, after 1, and nothing is written. */
static void try_version(uint64_t way)
{
    static uint64_t words[CLOCKIVY_STORED_HEAD + CLOCKIVY_RECORD_LEN + 2];
    static uint64_t sheets[2 * CLOCKIVY_SHEET_LEN(CLOCKIVY_ROUNDS_7)];
    const size_t words_len = sizeof words / sizeof words[0];
    const size_t sheets_len = clockivy_sheets_len(1, way);
    uint64_t totals[2] = {77, 88};
    clockivy_session session;
    clockivy_session before;
    clockivy_seat seat;

    memset(&session, 0xA5, sizeof session);
    before = session;
    seat.n = 3;
    seat.own = 1;
    seat.k = 1;
    seat.way = way;
    words[0] = CLOCKIVY_VERSION;
    words[CLOCKIVY_STORED_HEAD + CLOCKIVY_PLACE_K] = 1;
    words[CLOCKIVY_STORED_HEAD + CLOCKIVY_PLACE_LAST] = way;
    wrong |= clockivy_session_open(&session, &seat, totals, 2, sheets, sheets_len)
            != CLOCKIVY_WRONG_LENGTH
        || clockivy_session_resume(&session, words, words_len, totals, 2, sheets, sheets_len)
            != CLOCKIVY_WRONG_LENGTH;
    seat.n = 2;
    words[0] = CLOCKIVY_VERSION + 1; /* that of the library */
    wrong |= clockivy_session_open(&session, &seat, totals, 2, sheets, sheets_len)
            != CLOCKIVY_OUT_OF_RANGE
        || clockivy_session_resume(&session, words, words_len, totals, 2, sheets, sheets_len)
            != CLOCKIVY_OUT_OF_RANGE
        || memcmp(&session, &before, sizeof before) != 0
        || totals[0] != 77 || totals[1] != 88 || sheets[0] != 0;
    if (wrong)
        fprintf(stderr, "a library of another version is not refused as it should be\n");
}

/* Asks about every number, where the one place alone is marked, or none is. */
static void ask(int place)
{
    int i;

    for (i = 0; i < PLACES; i++)
        if (clockivy_party_has_bid(&kept.party, (uint64_t)i) != (i == place)) {
            fprintf(stderr, "place %d marked: wrong about %d\n", place, i);
            wrong = 1;
        }
    for (i = 0; i < PAST; i++)
        if (clockivy_party_has_bid(&kept.party, past[i]) != 0) {
            fprintf(stderr, "place %d marked: wrong past the roll, %d\n", place, i + 1);
            wrong = 1;
        }
}

static void try_marks(void)
{
    int place;

    memset(&kept, 0xFF, sizeof kept);
    memset(kept.party.roll, 0, sizeof kept.party.roll);
    ask(-1);
    for (place = 0; place < PLACES; place++) {
        kept.party.roll[place / 64] = POWER(place % 64);
        ask(place);
        kept.party.roll[place / 64] = 0;
    }
}

int main(void)
{
    try_limits();
    try_ways();
    try_messages();
    try_fields();
    try_version(CLOCKIVY_ROUNDS_33);
    try_version(CLOCKIVY_ROUNDS_7);
    try_drawing(CLOCKIVY_ROUNDS_33);
    try_drawing(CLOCKIVY_ROUNDS_7);
    try_marks();
    if (wrong)
        return EXIT_FAILURE;
    printf("%d limits, %d places of the roll\n", (int)CASES, (int)PLACES);
    return EXIT_SUCCESS;
}
