/*
 * A whole auction of five parties in one process, held with 33 rounds a probe and
 * again with 7: four bids, eight listed prices. One bid is split entry by entry. A
 * line drops while a bid is sent, and the bid is sent again when the others are in.
 * A party drops off in the middle of a probe; the others go on, and it hears what it
 * has missed when it comes back. Demand equals supply at four neighbouring prices,
 * and the middle one is taken, rounded down; the totals there are opened, each fleet
 * works out its hours, and the settlement page has those of all. Prints the bid sent
 * again, each probe, the party that comes back, the price, the totals and the page,
 * and checks all of it against the tables, which only a program that plays every role
 * can add up.
 *
 *   make
 *   cc -O2 -I../../include auction.c -L../../target/staticlib -lclockivy -o auction
 *
 * The coins come from the operating system (clockivy_coins.h). A real auction has a
 * program for each role, and each role sees what the functions here are given of it.
 */
#include "check.h"
#include "clockivy_coins.h"

enum {
    N = 5,
    K = 8,
    BIDS = 4,
    TABLE = CLOCKIVY_TABLE_LEN(K),
    T = CLOCKIVY_THRESHOLD(N),
    /* for 8 probes of both searches, on the way whose sheets are the longer ones */
    MAX_SHEETS_LEN = 8 * CLOCKIVY_SHEET_LEN(CLOCKIVY_ROUNDS_7)
};

static const uint64_t prices[K] = {80, 90, 100, 110, 120, 130, 140, 150};

/* Demand at each price, then supply at each, in tenths of an hour. */
static const uint64_t tables[BIDS][TABLE] = {
    {90, 80, 70, 40, 40, 40, 40, 5, 0, 0, 0, 0, 0, 0, 0, 0},
    {45, 45, 45, 41, 41, 41, 41, 0, 0, 0, 0, 0, 0, 0, 0, 9},
    {0, 0, 0, 0, 0, 0, 0, 0, 0, 10, 30, 52, 52, 52, 52, 75},
    {0, 0, 0, 0, 0, 0, 0, 0, 7, 7, 7, 29, 29, 29, 29, 90}
};

/* The numbers of those who bid. */
static const uint64_t bidders[BIDS] = {17, 4, 640, CLOCKIVY_MAX_BIDS};

/* The bid that is split entry by entry. */
enum { BY_ENTRIES = 2 };

/* The bid whose line drops, and the parties that it has reached by then. */
enum { DROPPED = 1, REACHED = 2 };

/* The party that drops off, from 0, and the most rounds that it misses. */
enum { AWAY = 3, MOST_MISSED = 25 };

/*
 * How the auction is held: with how many rounds a probe, and for which of them the
 * party is away, counted from 0 over all probes: from the middle of the first probe
 * into the second.
 */
struct course {
    uint64_t way;
    size_t from;
    size_t until;
};

static const struct course courses[] = {
    {CLOCKIVY_ROUNDS_33, 20, 45},
    {CLOCKIVY_ROUNDS_7, 3, 10}
};

/* What a desk keeps until every party has its bid. */
struct desk {
    uint64_t bidder;
    uint64_t shares[N * TABLE]; /* party 1's first */
};

/* What one party keeps. */
struct kept {
    clockivy_session session;
    uint64_t totals[TABLE];
    uint64_t sheets[MAX_SHEETS_LEN];
};

static struct kept parties[N];

/* A round, as it is kept for a party that comes back. Messages have no gaps between. */
struct heard {
    uint64_t messages[N * CLOCKIVY_MAX_MESSAGE_LEN];
    uint8_t present[N];
};

static struct heard missed[MOST_MISSED];

/* Each party opens its session. */
static void open_sessions(uint64_t way)
{
    const size_t sheets_len = clockivy_sheets_len(K, way);
    size_t i;

    check(sheets_len <= MAX_SHEETS_LEN, "there is no room for the sheets");
    for (i = 0; i < N; i++) {
        struct kept *const kept = &parties[i];
        clockivy_seat seat;

        seat.n = N;
        seat.own = i + 1;
        seat.k = K;
        seat.way = way;
        done(clockivy_session_open(&kept->session, &seat, kept->totals, TABLE,
                                   kept->sheets, sheets_len), "open");
    }
}

/* The desk splits its bidder's table for every party, with coins from the system. */
static void split(struct desk *desk, const uint64_t *table)
{
    done(clockivy_draw_bid(N, K, table, TABLE, desk->shares, N * TABLE,
                           clockivy_system_source, NULL), "draw_bid");
}

/*
 * The same by hand: every party's share of an entry is written before the t coins of
 * the next one are drawn. Each place is blank before that, so that one that was left
 * out would be no share.
 */
static void split_by_entries(struct desk *desk, const uint64_t *table)
{
    uint64_t coins[T];
    uint64_t entry;
    size_t i;

    clockivy_blank(desk->shares, N * TABLE);
    for (entry = 1; entry <= TABLE; entry++) {
        check(clockivy_draw_words(clockivy_system_source, NULL, CLOCKIVY_PRIME, coins, T),
              "there are no coins");
        for (i = 0; i < N; i++)
            done(clockivy_split_entry(N, i + 1, K, entry, table, TABLE, coins, T,
                                      desk->shares + i * TABLE, TABLE), "split_entry");
    }
    clockivy_wipe(coins, sizeof coins);
}

/* A party is sent the desk's bid. */
static uint64_t add(size_t i, const struct desk *desk)
{
    return clockivy_session_add(&parties[i].session, desk->bidder,
                                desk->shares + i * TABLE, TABLE);
}

/* The bid goes to the first parties, and each adds its own shares. */
static void send_bid(const struct desk *desk, size_t reached)
{
    size_t i;

    for (i = 0; i < reached; i++)
        done(add(i, desk), "add");
}

/*
 * The same shares go to every party once more. Those that have the bid refuse
 * it and are as before; the others add it, after bids that came later.
 */
static void send_again(const struct desk *desk)
{
    int refused = 0;
    size_t i;

    for (i = 0; i < N; i++) {
        const struct kept before = parties[i];
        const uint64_t reply = add(i, desk);

        if (reply == CLOCKIVY_ALREADY_ENTERED) {
            check(memcmp(&before, &parties[i], sizeof before) == 0,
                  "a refused bid has changed something");
            refused++;
        } else {
            done(reply, "add");
        }
    }
    check(refused == REACHED, "a bid was added twice, or is lost");
    printf("bidder %d sent again: %d refused, %d added\n",
           (int)desk->bidder, refused, N - refused);
}

/* Whether every party has each bid once. */
static int all_in(void)
{
    size_t i;
    size_t j;

    for (i = 0; i < N; i++) {
        const clockivy_party *const party = &parties[i].session.party;

        if (party->bids != BIDS)
            return 0;
        for (j = 0; j < BIDS; j++)
            if (!clockivy_party_has_bid(party, bidders[j]))
                return 0;
    }
    return 1;
}

/* All bids are split and sent, one of them twice. */
static void collect_bids(void)
{
    static struct desk desks[BIDS];
    size_t i;

    for (i = 0; i < BIDS; i++) {
        desks[i].bidder = bidders[i];
        if (i == BY_ENTRIES)
            split_by_entries(&desks[i], tables[i]);
        else
            split(&desks[i], tables[i]);
        if (i == DROPPED)
            send_bid(&desks[i], REACHED);
        else
            send_bid(&desks[i], N);
    }
    send_again(&desks[DROPPED]);
    check(all_in(), "a bid is missing");
    clockivy_wipe(desks, sizeof desks);
}

/* The dealer draws and writes every party's sheets, and each receives its own. */
static void deal(uint64_t way)
{
    static uint64_t sheets[N * MAX_SHEETS_LEN];
    const size_t len = clockivy_sheets_len(K, way);
    size_t i;

    done(clockivy_draw_sheets(N, K, way, sheets, N * len, clockivy_system_source, NULL),
         "draw_sheets");
    for (i = 0; i < N; i++)
        done(clockivy_session_receive(&parties[i].session, sheets + i * len, len), "receive");
    clockivy_wipe(sheets, sizeof sheets);
}

/* A party says its message of the round, in its own place. */
static void say(size_t i, struct heard *round)
{
    clockivy_session *const session = &parties[i].session;
    const size_t len = clockivy_session_message_len(session);

    done(clockivy_session_say(session, round->messages + i * len, len), "say");
}

/* A party hears a round. */
static void hear(size_t i, const struct heard *round)
{
    clockivy_session *const session = &parties[i].session;

    done(clockivy_session_hear(session, round->messages,
                               N * clockivy_session_message_len(session), round->present, N),
         "hear");
}

/*
 * The party that comes back hears every round that it has missed, in order, with
 * the messages and the marks with which the others have heard it. Then it stands
 * where they do, and may be marked again.
 */
static void come_back(size_t late)
{
    const clockivy_party *const back = &parties[AWAY].session.party;
    const clockivy_party *const other = &parties[0].session.party;
    size_t i;

    for (i = 0; i < late; i++)
        hear(AWAY, &missed[i]);
    check(back->probes == other->probes && back->round == other->round,
          "a party has not come back to where the others are");
    printf("party %d back: %d rounds heard late\n", AWAY + 1, (int)late);
}

/*
 * Each party that is there says its message, and each hears those of all who are.
 * While one is away, the round is kept for it.
 */
static void exchange_round(const struct course *course, size_t number)
{
    const int without = number >= course->from && number < course->until;
    struct heard round;
    size_t i;

    if (number == course->until)
        come_back(course->until - course->from);
    memset(&round, 0, sizeof round);
    for (i = 0; i < N; i++) {
        round.present[i] = without && i == AWAY ? 0 : 1;
        if (round.present[i])
            say(i, &round);
    }
    for (i = 0; i < N; i++)
        if (round.present[i])
            hear(i, &round);
    if (without)
        missed[number - course->from] = round;
}

/* The sum of all bids at a place of their tables. */
static uint64_t total(uint64_t place)
{
    uint64_t sum = 0;
    size_t i;

    for (i = 0; i < BIDS; i++)
        sum += tables[i][place];
    return sum;
}

static uint64_t demand(uint64_t index)
{
    return total(index - 1);
}

static uint64_t supply(uint64_t index)
{
    return total(K + index - 1);
}

/* What the verdict of a search has to be at an index. */
static int compared(uint64_t search, uint64_t index)
{
    if (search == 1)
        return demand(index) >= supply(index);
    return supply(index) >= demand(index);
}

/* The verdict that a probe of this search at this index has left in a record. */
static int verdict(uint64_t search, uint64_t index, const clockivy_party *after)
{
    if (search == 2)
        return after->hi == index;
    if (after->search == 2)
        return after->first == index;
    return after->lo == index;
}

/* The price by the tables: the middle of those that balance, or the highest. */
static uint64_t expected_index(void)
{
    uint64_t highest = K;
    uint64_t lowest = 1;

    while (highest > 0 && demand(highest) < supply(highest))
        highest--;
    while (lowest <= highest && supply(lowest) < demand(lowest))
        lowest++;
    return lowest <= highest ? (highest + lowest) / 2 : highest;
}

/* Probe after probe and then the totals, until party 1 says that it is over. */
static clockivy_outcome run_rounds(const struct course *course, size_t *rounds)
{
    const clockivy_party *const party = &parties[0].session.party;
    clockivy_outcome outcome;
    uint64_t reply;
    size_t i;

    while ((reply = clockivy_session_outcome(&parties[0].session, &outcome))
           == CLOCKIVY_OUT_OF_TURN) {
        const uint64_t search = party->search;
        const uint64_t probed = (party->lo + party->hi) / 2;
        int opened;

        if (party->round >= CLOCKIVY_ROUND_DEMAND) {
            /* There is a price: two more rounds, for the totals. */
            exchange_round(course, (*rounds)++);
            continue;
        }
        for (i = 0; i < course->way; i++)
            exchange_round(course, (*rounds)++);
        opened = verdict(search, probed, party);
        printf("probe %d index %d verdict %d\n", (int)party->probes, (int)probed, opened);
        check(opened == compared(search, probed), "the verdict is wrong");
    }
    done(reply, "outcome");
    return outcome;
}

/* Every party has come to the same, and it is what the tables say. */
static void check_outcomes(uint64_t way, const clockivy_outcome *outcome, size_t rounds)
{
    const uint64_t index = outcome->index;
    size_t i;

    check(index == expected_index(), "the answer is wrong");
    check(index == 0 || (outcome->demand == demand(index) && outcome->supply == supply(index)),
          "the totals are wrong");
    check(rounds == way * outcome->probes + (index == 0 ? 0 : 2),
          "the number of rounds is wrong");
    for (i = 0; i < N; i++) {
        clockivy_outcome other;

        done(clockivy_session_outcome(&parties[i].session, &other), "outcome");
        check(memcmp(&other, outcome, sizeof other) == 0, "two parties have two outcomes");
    }
}

/*
 * Every fleet is told the index and the totals, and has its own table: what it
 * sells there is sold, and what it gets of what it wants it works out for itself.
 * Here all of them tell it to whoever lays out the page.
 */
static void share_out(const clockivy_outcome *outcome, uint64_t *amounts)
{
    uint64_t bought = 0;
    uint64_t remainders = 0;
    size_t i;

    for (i = 0; i < BIDS; i++) {
        const uint64_t wants = tables[i][outcome->index - 1];
        const uint64_t sells = tables[i][K + outcome->index - 1];
        uint64_t *const settled = amounts + 4 * (bidders[i] - 1);
        uint64_t tenths;
        uint64_t remainder;

        done(clockivy_cleared_fill(outcome->demand, outcome->supply, wants,
                                   &tenths, &remainder), "fill");
        settled[0] = wants;
        settled[1] = tenths;
        settled[2] = sells;
        settled[3] = sells;
        bought += tenths;
        remainders += remainder;
    }
    check(bought * outcome->demand + remainders == outcome->demand * outcome->supply,
          "something is left that is in no remainder");
}

/* Prints the page. Whoever knows the price reads the hours off it again. */
static void pin_up(uint64_t price, const uint64_t *amounts)
{
    static uint8_t page[2 * BIDS * CLOCKIVY_LINE_LEN];
    static uint64_t found[CLOCKIVY_SETTLEMENT_LEN];
    uint64_t written;

    done(clockivy_settlement_write(price, amounts, CLOCKIVY_SETTLEMENT_LEN,
                                   page, sizeof page, &written), "settlement_write");
    fwrite(page, 1, (size_t)written, stdout);
    done(clockivy_settlement_read(price, page, (size_t)written,
                                  found, CLOCKIVY_SETTLEMENT_LEN), "settlement_read");
    check(memcmp(found, amounts, sizeof found) == 0, "the page gives other amounts");
}

/* The whole auction. */
static void hold(const struct course *course)
{
    static uint64_t amounts[CLOCKIVY_SETTLEMENT_LEN];
    clockivy_outcome outcome;
    uint64_t price;
    uint64_t reply;
    size_t rounds = 0;

    open_sessions(course->way);
    collect_bids();
    deal(course->way);
    outcome = run_rounds(course, &rounds);
    check_outcomes(course->way, &outcome, rounds);

    reply = clockivy_outcome_price(&outcome, prices, K, &price);
    if (reply == CLOCKIVY_NOT_CLEARED) {
        printf("clears 0 none\n");
        printf("rounds %d\n", (int)rounds);
        return;
    }
    done(reply, "outcome_price");
    printf("clears %d %d\n", (int)outcome.index, (int)price);
    printf("demand %d supply %d\n", (int)outcome.demand, (int)outcome.supply);
    printf("rounds %d\n", (int)rounds);
    share_out(&outcome, amounts);
    pin_up(price, amounts);
}

int main(void)
{
    size_t i;

    for (i = 0; i < sizeof courses / sizeof courses[0]; i++) {
        printf("%d rounds a probe\n", (int)courses[i].way);
        hold(&courses[i]);
    }
    return EXIT_SUCCESS;
}
