/*
 * What buyers get at the price. Runs whole auctions of three parties and four
 * prices, on either way: the paper's bids, buyers who get a part each, no bids, no
 * demand at the price, and no price. Each fill is held against the tables, by a record
 * and by the totals alone, and before the end there is none. Then tries every refusal
 * of clockivy_fill and clockivy_cleared_fill, in their order, and what comes before the
 * length of a record that clockivy_add and clockivy_hear are lent.
 */
#include "check.h"
#include "clockivy_coins.h"

enum {
    N = 3,
    K = 4,
    TABLE = CLOCKIVY_TABLE_LEN(K),
    MAX_SHEETS_LEN = 6 * CLOCKIVY_SHEET_LEN(CLOCKIVY_ROUNDS_7),
    MOST = 4,
    LONGER = CLOCKIVY_RECORD_LEN + 1
};

/* What one party keeps. */
struct kept {
    clockivy_session session;
    uint64_t totals[TABLE];
    uint64_t sheets[MAX_SHEETS_LEN];
};

static struct kept parties[N];

/* An auction, and what it comes to. */
static const struct {
    size_t bids;
    uint64_t tables[MOST][TABLE];
    uint64_t index;
    uint64_t demand;
    uint64_t supply;
    uint64_t tenths[MOST];
    uint64_t remainders[MOST];
} cases[] = {
    /* the paper's */
    {2,
     {{30, 20, 15, 0, 0, 0, 0, 0}, {0, 0, 0, 0, 5, 15, 18, 40}},
     2, 20, 15, {15, 0}, {0, 0}},
    /* three who buy; two tenths are left over */
    {4,
     {{9, 8, 7, 0, 0, 0, 0, 0}, {9, 8, 7, 0, 0, 0, 0, 0},
      {9, 8, 6, 0, 0, 1, 2, 9}, {0, 0, 0, 0, 1, 5, 9, 70}},
     3, 20, 11, {3, 3, 3, 0}, {17, 17, 6, 0}},
    /* balanced from 2 to 4: everybody gets all */
    {3,
     {{5, 4, 4, 4, 0, 0, 0, 0}, {3, 3, 3, 3, 0, 0, 0, 0}, {0, 0, 0, 0, 6, 7, 7, 7}},
     3, 7, 7, {4, 3, 0}, {0, 0, 0}},
    /* nobody sells */
    {2,
     {{5, 4, 4, 4, 0, 0, 0, 0}, {3, 0, 0, 0, 0, 0, 0, 0}},
     4, 4, 0, {0, 0}, {0, 0}},
    /* no bids, and one that wants nothing */
    {0, {{0}}, 2, 0, 0, {0}, {0}},
    {1, {{0, 0, 0, 0, 0, 0, 0, 0}}, 2, 0, 0, {0}, {0}},
    /* the largest amounts there are */
    {2,
     {{CLOCKIVY_MAX_AMOUNT, CLOCKIVY_MAX_AMOUNT, CLOCKIVY_MAX_AMOUNT, CLOCKIVY_MAX_AMOUNT,
       0, 0, 0, 0},
      {1, 1, 1, 1, 0, 0, 0, CLOCKIVY_MAX_AMOUNT}},
     4, CLOCKIVY_MAX_AMOUNT + 1, CLOCKIVY_MAX_AMOUNT,
     {CLOCKIVY_MAX_AMOUNT - 1, 0}, {1, CLOCKIVY_MAX_AMOUNT}},
    /* no price */
    {1, {{0, 0, 0, 0, 1, 1, 1, 1}}, 0, 0, 0, {0}, {0}}
};

enum { CASES = sizeof cases / sizeof cases[0] };

static int fills;
static int refusals;

/* All parties with the bids added and the sheets dealt. */
static void open_all(size_t number, uint64_t way)
{
    static uint64_t shares[N * TABLE];
    static uint64_t sheets[N * MAX_SHEETS_LEN];
    const size_t len = clockivy_sheets_len(K, way);
    clockivy_seat seat;
    size_t i;
    size_t j;

    seat.n = N;
    seat.k = K;
    seat.way = way;
    done(clockivy_draw_sheets(N, K, way, sheets, N * len, clockivy_system_source, NULL),
         "draw_sheets");
    for (i = 0; i < N; i++) {
        struct kept *const kept = &parties[i];

        seat.own = i + 1;
        done(clockivy_session_open(&kept->session, &seat, kept->totals, TABLE,
                                   kept->sheets, len), "open");
        done(clockivy_session_receive(&kept->session, sheets + i * len, len), "receive");
    }
    for (j = 0; j < cases[number].bids; j++) {
        done(clockivy_draw_bid(N, K, cases[number].tables[j], TABLE, shares, N * TABLE,
                               clockivy_system_source, NULL), "draw_bid");
        for (i = 0; i < N; i++)
            done(clockivy_session_add(&parties[i].session, j + 1, shares + i * TABLE, TABLE),
                 "add");
    }
}

/* Everybody says a message and hears all. */
static void exchange_round(void)
{
    static const uint8_t present[N] = {1, 1, 1};
    const size_t len = clockivy_session_message_len(&parties[0].session);
    uint64_t messages[N * CLOCKIVY_MAX_MESSAGE_LEN];
    size_t i;

    for (i = 0; i < N; i++)
        done(clockivy_session_say(&parties[i].session, messages + i * len, len), "say");
    for (i = 0; i < N; i++)
        done(clockivy_session_hear(&parties[i].session, messages, N * len, present, N), "hear");
}

/* What was written by a call that is refused with this number: nothing. */
static void not_filled(uint64_t reply, uint64_t number, uint64_t tenths, uint64_t remainder)
{
    check(reply == number, "a fill was not refused, or with another number");
    check(tenths == 77 && remainder == 88, "a refused fill has written something");
    refusals++;
}

static void refused(const uint64_t *record, size_t length, uint64_t amount, uint64_t number)
{
    uint64_t tenths = 77;
    uint64_t remainder = 88;
    const uint64_t reply = clockivy_fill(record, length, amount, &tenths, &remainder);

    not_filled(reply, number, tenths, remainder);
}

static void refused_by(const clockivy_party *party, uint64_t amount, uint64_t number)
{
    uint64_t words[CLOCKIVY_RECORD_LEN];

    memcpy(words, party, sizeof words);
    refused(words, CLOCKIVY_RECORD_LEN, amount, number);
}

static void refused_by_totals(uint64_t demand, uint64_t supply, uint64_t amount,
                              uint64_t number)
{
    uint64_t tenths = 77;
    uint64_t remainder = 88;
    const uint64_t reply = clockivy_cleared_fill(demand, supply, amount, &tenths, &remainder);

    not_filled(reply, number, tenths, remainder);
}

/* A fill that is given, by a record. */
static void filled(const clockivy_party *party, uint64_t amount,
                   uint64_t expected, uint64_t left)
{
    uint64_t words[CLOCKIVY_RECORD_LEN];
    uint64_t tenths = 77;
    uint64_t remainder = 88;

    memcpy(words, party, sizeof words);
    done(clockivy_fill(words, CLOCKIVY_RECORD_LEN, amount, &tenths, &remainder), "fill");
    check(tenths == expected && remainder == left, "a fill is wrong");
    fills++;
}

/* One that is given by D and S alone. */
static void filled_by_totals(uint64_t demand, uint64_t supply, uint64_t amount,
                             uint64_t expected, uint64_t left)
{
    uint64_t tenths = 77;
    uint64_t remainder = 88;

    done(clockivy_cleared_fill(demand, supply, amount, &tenths, &remainder), "cleared_fill");
    check(tenths == expected && remainder == left, "a fill by the totals is wrong");
    fills++;
}

/* Every bid of an auction that has a price is filled, by a record and by D and S. */
static void fill_all(size_t number, const clockivy_party *party)
{
    const uint64_t demand = cases[number].demand;
    const uint64_t supply = cases[number].supply;
    uint64_t bought = 0;
    uint64_t remainders = 0;
    uint64_t buyers = 0;
    size_t j;

    for (j = 0; j < cases[number].bids; j++) {
        const uint64_t wants = cases[number].tables[j][cases[number].index - 1];
        const uint64_t tenths = cases[number].tenths[j];
        const uint64_t remainder = cases[number].remainders[j];

        filled(party, wants, tenths, remainder);
        filled_by_totals(demand, supply, wants, tenths, remainder);
        bought += tenths;
        remainders += remainder;
        buyers += wants > 0;
    }
    check(bought * demand + remainders == demand * supply,
          "something is left that is in no remainder");
    check(demand == 0 || supply - bought < buyers, "too much is left over");
    refused_by(party, CLOCKIVY_MAX_AMOUNT + 1, CLOCKIVY_AMOUNT_TOO_LARGE);
}

/* Whether a record holds no share and no opened sum. */
static int holds_none(const clockivy_party *party)
{
    uint64_t any = party->sum | party->carry;
    size_t i;

    for (i = 0; i < CLOCKIVY_PAIRS_LEN; i++)
        any |= party->pairs[i];
    return any == 0;
}

/* One of the auctions, to its end. */
static void run(size_t number, uint64_t way)
{
    const uint64_t index = cases[number].index;
    clockivy_outcome outcome;
    uint64_t rounds = 0;
    size_t i;

    open_all(number, way);
    while (clockivy_session_outcome(&parties[0].session, &outcome) == CLOCKIVY_OUT_OF_TURN) {
        refused_by(&parties[0].session.party, 0, CLOCKIVY_NOT_CLEARED);
        exchange_round();
        rounds++;
    }
    for (i = 0; i < N; i++) {
        const clockivy_party *const party = &parties[i].session.party;

        done(clockivy_session_outcome(&parties[i].session, &outcome), "outcome");
        check(outcome.index == index, "the answer is wrong");
        check(rounds == way * outcome.probes + (index == 0 ? 0 : 2),
              "the number of rounds is wrong");
        check(outcome.demand == cases[number].demand && outcome.supply == cases[number].supply,
              "the totals are wrong");
        check(holds_none(party), "a record that is over holds a share");
        if (index == 0) {
            check(party->round == 1, "there are totals without a price");
            refused_by(party, 0, CLOCKIVY_NOT_CLEARED);
            refused_by(party, CLOCKIVY_MAX_AMOUNT + 1, CLOCKIVY_NOT_CLEARED);
        } else {
            check(party->round == CLOCKIVY_ROUND_OVER, "it is not over");
            fill_all(number, party);
        }
    }
}

/* Records of another length, that of version 1 among them. */
static const size_t lengths[] = {0, 10, 31, CLOCKIVY_RECORD_LEN - 1, LONGER};

enum { LENGTHS = sizeof lengths / sizeof lengths[0] };

/* Fields of a record that is over which are out of range, each by itself. */
static void try_fields(const clockivy_party *over)
{
    static const uint64_t rounds[] = {0, 1, 7, 8, 33, 37, UINT64_MAX};
    static const uint64_t no_ways[] = {0, 1, 6, 8, 32, 34, UINT64_MAX};
    clockivy_party party = *over;
    size_t i;

    for (i = 0; i < sizeof rounds / sizeof rounds[0]; i++) {
        party.round = rounds[i];
        refused_by(&party, CLOCKIVY_MAX_AMOUNT + 1, CLOCKIVY_OUT_OF_RANGE);
    }
    party = *over;
    for (i = 0; i < sizeof no_ways / sizeof no_ways[0]; i++) {
        party.last = no_ways[i];
        refused_by(&party, CLOCKIVY_MAX_AMOUNT + 1, CLOCKIVY_OUT_OF_RANGE);
    }
    party = *over;
    for (i = 0; i < CLOCKIVY_PAIRS_LEN; i++) {
        party.pairs[i] = 256;
        refused_by(&party, CLOCKIVY_MAX_AMOUNT + 1, CLOCKIVY_OUT_OF_RANGE);
        party.pairs[i] = 255; /* which is a share */
    }
    filled(&party, 7, 5, 5);
    party = *over;
    party.demand = 14;
    refused_by(&party, 0, CLOCKIVY_OUT_OF_RANGE);
}

/* Every refusal by a record, and which comes first. */
static void try_refusals(uint64_t way)
{
    const uint64_t large = CLOCKIVY_MAX_AMOUNT + 1;
    uint64_t words[LONGER];
    clockivy_party party;
    size_t i;

    memset(words, 0xFF, sizeof words);
    for (i = 0; i < LENGTHS; i++)
        refused(words, lengths[i], large, CLOCKIVY_WRONG_LENGTH);

    /* The paper's auction, in which 20 are wanted and 15 for sale. */
    run(0, way);
    party = parties[0].session.party;
    filled(&party, 20, 15, 0);
    filled(&party, 7, 5, 5);
    filled(&party, CLOCKIVY_MAX_AMOUNT, 3145727, 5);
    refused_by(&party, large, CLOCKIVY_AMOUNT_TOO_LARGE);
    refused_by(&party, UINT64_MAX, CLOCKIVY_AMOUNT_TOO_LARGE);
    try_fields(&party);
    party.round = CLOCKIVY_ROUND_DEMAND;
    refused_by(&party, large, CLOCKIVY_NOT_CLEARED);
    party.round = CLOCKIVY_ROUND_SUPPLY;
    refused_by(&party, large, CLOCKIVY_NOT_CLEARED);
}

/* The same by D and S: where they are no totals, that comes first. */
static void try_totals(void)
{
    static const uint64_t none[][2] = {
        {14, 15}, {0, 1}, {CLOCKIVY_TOTAL_LIMIT, 0}, {CLOCKIVY_TOTAL_LIMIT, CLOCKIVY_TOTAL_LIMIT},
        {0, UINT64_MAX}, {UINT64_MAX, 0}, {UINT64_MAX, UINT64_MAX}
    };
    const uint64_t large = CLOCKIVY_MAX_AMOUNT + 1;
    const uint64_t most = CLOCKIVY_TOTAL_LIMIT - 1;
    size_t i;

    for (i = 0; i < sizeof none / sizeof none[0]; i++) {
        refused_by_totals(none[i][0], none[i][1], 0, CLOCKIVY_OUT_OF_RANGE);
        refused_by_totals(none[i][0], none[i][1], large, CLOCKIVY_OUT_OF_RANGE);
    }
    refused_by_totals(20, 15, large, CLOCKIVY_AMOUNT_TOO_LARGE);
    refused_by_totals(0, 0, UINT64_MAX, CLOCKIVY_AMOUNT_TOO_LARGE);
    filled_by_totals(20, 15, 20, 15, 0);
    filled_by_totals(20, 15, 7, 5, 5);
    filled_by_totals(20, 15, CLOCKIVY_MAX_AMOUNT, 3145727, 5);
    filled_by_totals(most, most, CLOCKIVY_MAX_AMOUNT, CLOCKIVY_MAX_AMOUNT, 0);
    filled_by_totals(most, 0, CLOCKIVY_MAX_AMOUNT, 0, 0);
    filled_by_totals(0, 0, CLOCKIVY_MAX_AMOUNT, 0, 0);
}

/* A bidder's number and marks need no record: 1 where they are none, and then 2. */
static void try_lengths(void)
{
    static const uint64_t bidders[] = {1, 1000, 0, 1001};
    static const uint8_t marks[] = {0, 1, 2, 7};
    const uint64_t word = 0;
    uint64_t words[LONGER];
    uint64_t total = 0;
    size_t i;
    size_t j;

    memset(words, 0xFF, sizeof words);
    for (i = 0; i < LENGTHS; i++)
        for (j = 0; j < sizeof marks; j++) {
            const uint64_t number = j < 2 ? CLOCKIVY_WRONG_LENGTH : CLOCKIVY_OUT_OF_RANGE;

            check(clockivy_add(words, lengths[i], &total, 1, bidders[j], &word, 1) == number,
                  "a bid was not refused, or with another number");
            check(clockivy_hear(words, lengths[i], &word, 1, &word, 1, &word, 1, &marks[j], 1)
                      == number,
                  "a hearing was not refused, or with another number");
            refusals += 2;
        }
    for (i = 0; i < LONGER; i++)
        check(words[i] == UINT64_MAX && total == 0, "a refused call has written something");
}

int main(void)
{
    static const uint64_t ways[] = {CLOCKIVY_ROUNDS_33, CLOCKIVY_ROUNDS_7};
    size_t number;
    size_t i;

    for (i = 0; i < sizeof ways / sizeof ways[0]; i++) {
        for (number = 0; number < CASES; number++)
            run(number, ways[i]);
        try_refusals(ways[i]);
    }
    try_totals();
    try_lengths();
    printf("%d auctions on either way, %d fills, %d refusals\n", (int)CASES, fills, refusals);
    return EXIT_SUCCESS;
}
