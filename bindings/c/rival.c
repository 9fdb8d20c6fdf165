/*
 * What a rival sees. Two auctions in which every bidder bids differently, and t
 * parties who pool all that they receive: it is the same in both, word for word.
 *
 *   rival ONE OTHER [N [PARTY...]]
 *
 * ONE and OTHER are two files of the rehearsal's format (docs/REHEARSAL.md); the seeds
 * are not used. N is the number of parties, if it is not that of the files, and the t
 * PARTYs are those who pool, if they are not the first t.
 *
 * The coins of the first auction come from the system. For each choice of them there
 * is one of the second's with which the pool receives the same, and this one is made
 * (fit_bid, fit_probe). Both auctions then run by the same calls, all parties present,
 * and every word is compared. As no coins are likelier than others, what the pool has
 * received may as well come of the one auction as of the other. docs/PROMISES.md,
 * "Demand 3", says it of all auctions that agree in what agree() asks for.
 *
 * The exit status is 1 where the auctions do not agree so, or a word differs.
 */
#include "check.h"
#include "clockivy_coins.h"
#include "field.h"

enum {
    WAY = CLOCKIVY_ROUNDS_33,
    MAX_N = CLOCKIVY_MAX_PARTIES,
    MAX_T = CLOCKIVY_THRESHOLD(MAX_N),
    MAX_K = 256, /* of a file */
    MAX_TABLE = CLOCKIVY_TABLE_LEN(MAX_K),
    MAX_PROBES = 18,
    SHEET = CLOCKIVY_SHEET_LEN(WAY)
};

/* One of the two auctions. */
struct auction {
    const char *name;
    uint64_t n;
    size_t k;
    size_t bids;
    uint64_t *tables;           /* 2k amounts for each bid */
    uint64_t totals[MAX_TABLE]; /* of all bids, in the clear */
    clockivy_session sessions[MAX_N];
    uint64_t shares[MAX_N][MAX_TABLE]; /* of the bid that is being added */
    uint64_t held[MAX_N][MAX_TABLE];   /* the parties' totals */
    uint64_t sheets[MAX_N][MAX_PROBES * SHEET];
    uint64_t dealt[MAX_N][MAX_PROBES * SHEET];
};

static struct auction one;
static struct auction other;

/* The parties, how many pool, and who. */
static uint64_t n;
static size_t t;
static uint64_t pool[MAX_T];

/* The probes that both auctions make. */
static struct {
    uint64_t search;
    uint64_t index;
} probes[MAX_PROBES];
static size_t probe_count;

/* Words that were compared, and how many of them differ. */
struct count {
    unsigned long words;
    unsigned long differ;
};

static struct {
    struct count amounts;
    struct count totals;
    struct count pool_shares;
    struct count other_shares;
    struct count one_more_shares; /* of the pool with one party more */
    struct count pool_sheets;
    struct count unused_sheets; /* of all parties */
    struct count messages;
    struct count verdicts;
    struct count outcomes;
} counts;

static void compare(struct count *count, const uint64_t *words, const uint64_t *others,
                    size_t len)
{
    size_t i;

    for (i = 0; i < len; i++)
        count->differ += words[i] != others[i];
    count->words += len;
}

/* Whether a party, 1 to n, is one of those who pool. */
static int pools(uint64_t party)
{
    size_t i;

    for (i = 0; i < t; i++)
        if (pool[i] == party)
            return 1;
    return 0;
}

/* The first party that is not in the pool. */
static uint64_t one_more(void)
{
    uint64_t party = 1;

    while (pools(party))
        party++;
    return party;
}

/* Reading a file. */

struct reader {
    FILE *file;
    const char *name;
    unsigned long line; /* the one that was read last */
};

/* Stops, as the rehearsal does at a file with a fault. */
static void refuse(const struct reader *reader, uint64_t refusal, unsigned long line)
{
    fprintf(stderr, "%s: refused %d line %lu\n", reader->name, (int)refusal, line);
    exit(EXIT_FAILURE);
}

/* The number on the next line. */
static uint64_t read_number(struct reader *reader)
{
    uint64_t number = 0;
    int digits = 0;
    int byte;

    reader->line++;
    while ((byte = getc(reader->file)) >= '0' && byte <= '9') {
        const uint64_t digit = (uint64_t)(byte - '0');

        if ((digits > 0 && number == 0) || number > (UINT64_MAX - digit) / 10)
            refuse(reader, CLOCKIVY_MALFORMED, reader->line);
        number = 10 * number + digit;
        digits++;
    }
    if (byte != '\n' || digits == 0)
        refuse(reader, CLOCKIVY_MALFORMED, reader->line);
    return number;
}

/* The number on the next line, where it is from least to most; else this refusal. */
static uint64_t read_within(struct reader *reader, uint64_t least, uint64_t most,
                            uint64_t refusal)
{
    const uint64_t number = read_number(reader);

    if (number < least || number > most)
        refuse(reader, refusal, reader->line);
    return number;
}

/* A bid: all lines are read, then the amounts judged, and then the table. */
static void read_bid(struct reader *reader, uint64_t *table, size_t k)
{
    const unsigned long before = reader->line;
    size_t i;

    for (i = 0; i < 2 * k; i++)
        table[i] = read_number(reader);
    for (i = 0; i < 2 * k; i++)
        if (table[i] > CLOCKIVY_MAX_AMOUNT)
            refuse(reader, CLOCKIVY_AMOUNT_TOO_LARGE, before + i + 1);
    for (i = 1; i < 2 * k; i++)
        if (i != k && (i < k ? table[i] > table[i - 1] : table[i] < table[i - 1]))
            refuse(reader, CLOCKIVY_NOT_MONOTONE, before + i + 1);
}

static void read_auction(struct auction *auction, const char *name)
{
    enum { FULL = 4 }; /* too many bids: a refusal of the rehearsal alone */
    struct reader reader;
    uint64_t price = 0;
    size_t i;
    size_t j;

    reader.name = name;
    reader.line = 0;
    reader.file = fopen(name, "rb");
    if (reader.file == NULL) {
        perror(name);
        exit(EXIT_FAILURE);
    }
    auction->name = name;
    auction->n = read_within(&reader, 3, MAX_N, CLOCKIVY_OUT_OF_RANGE);
    for (i = 0; i < auction->n; i++)
        read_number(&reader);
    auction->k = (size_t)read_within(&reader, 1, MAX_K, CLOCKIVY_OUT_OF_RANGE);
    for (i = 0; i < auction->k; i++)
        price = read_within(&reader, price + 1, CLOCKIVY_HIGHEST_PRICE, CLOCKIVY_MALFORMED);
    auction->bids = (size_t)read_within(&reader, 0, CLOCKIVY_MAX_BIDS, FULL);
    auction->tables = (uint64_t *)calloc(auction->bids * 2 * auction->k + 1, sizeof(uint64_t));
    check(auction->tables != NULL, "there is no memory for the bids");
    for (i = 0; i < auction->bids; i++) {
        uint64_t *const table = auction->tables + i * 2 * auction->k;

        read_bid(&reader, table, auction->k);
        for (j = 0; j < 2 * auction->k; j++)
            auction->totals[j] += table[j];
    }
    if (getc(reader.file) != EOF)
        refuse(&reader, CLOCKIVY_MALFORMED, reader.line + 1);
    fclose(reader.file);
}

/* What the totals in the clear come to. */

static uint64_t demand(const struct auction *auction, uint64_t index)
{
    return auction->totals[index - 1];
}

static uint64_t supply(const struct auction *auction, uint64_t index)
{
    return auction->totals[auction->k + index - 1];
}

/* i: the highest index at which demand is at least supply, or 0. */
static uint64_t highest(const struct auction *auction)
{
    uint64_t index = auction->k;

    while (index > 0 && demand(auction, index) < supply(auction, index))
        index--;
    return index;
}

/* j: the lowest index up to i at which supply is at least demand, or 0. */
static uint64_t lowest(const struct auction *auction)
{
    const uint64_t last = highest(auction);
    uint64_t index = 1;

    while (index <= last && supply(auction, index) < demand(auction, index))
        index++;
    return index <= last ? index : 0;
}

static uint64_t price_index(const struct auction *auction)
{
    const uint64_t i = highest(auction);
    const uint64_t j = lowest(auction);

    return j == 0 ? i : (i + j) / 2;
}

/* Stops where the two auctions differ in something that the parties learn. */
static void same(uint64_t first, uint64_t second, const char *what)
{
    if (first != second) {
        fprintf(stderr, "%s and %s do not agree: %s is %lu and %lu\n", one.name, other.name,
                what, (unsigned long)first, (unsigned long)second);
        exit(EXIT_FAILURE);
    }
}

/* Whether the two auctions may be compared: they agree in all that is not hidden. */
static void agree(void)
{
    uint64_t index;

    same(one.k, other.k, "the number of prices");
    same(one.bids, other.bids, "the number of bids");
    same(highest(&one), highest(&other),
         "the highest index with demand at least supply (0: none)");
    same(lowest(&one), lowest(&other), "the lowest balanced index (0: none)");
    index = price_index(&one);
    if (index != 0) {
        same(demand(&one, index), demand(&other, index), "total demand at the price");
        same(supply(&one, index), supply(&other, index), "total supply at the price");
    }
}

/* A number from 1 to 9, or 0 where the word is none. */
static uint64_t digit_of(const char *word)
{
    return word[0] >= '1' && word[0] <= '9' && word[1] == '\0' ? (uint64_t)(word[0] - '0') : 0;
}

/* Who takes part: the parties and the pool. */
static void choose_parties(int count, char **words)
{
    size_t i;

    if (count == 0)
        same(one.n, other.n, "the number of parties");
    n = count == 0 ? one.n : digit_of(words[0]);
    check(n >= 3 && n <= MAX_N, "N is 3 to 9");
    t = (size_t)CLOCKIVY_THRESHOLD(n);
    check(count <= 1 || (size_t)count == 1 + t, "the pool is t parties, t being (N - 1) / 2");
    for (i = 0; i < t; i++) {
        const uint64_t party = count <= 1 ? i + 1 : digit_of(words[1 + i]);
        size_t j;

        check(party >= 1 && party <= n, "a PARTY is 1 to N");
        for (j = 0; j < i; j++)
            check(pool[j] != party, "the PARTYs are different ones");
        pool[i] = party;
    }
}

/*
 * L, the polynomial of degree t that is 1 at 0 and 0 at each party of the pool: the
 * product of 1 - x / p. A secret that moves by d, with coefficients that move by d
 * times those of L, leaves the shares of the pool as they are. Place 0 has L's value
 * at 0.
 */
static uint64_t line[MAX_T + 1];
static uint8_t byte_line[MAX_T + 1];

static void make_lines(void)
{
    size_t i;
    size_t j;

    line[0] = 1;
    byte_line[0] = 1;
    for (i = 0; i < t; i++) {
        const uint64_t factor = CLOCKIVY_PRIME - inverse(pool[i]);
        const uint8_t byte_factor = byte_inverse((uint8_t)pool[i]);

        for (j = i + 1; j > 0; j--) {
            line[j] = plus(line[j], times(line[j - 1], factor));
            byte_line[j] ^= byte_times(byte_line[j - 1], byte_factor);
        }
    }
}

/* Moves t coefficients by how far the secret moves, from one amount to another. */
static void move(uint64_t *coins, uint64_t from, uint64_t to)
{
    size_t i;

    for (i = 0; i < t; i++) {
        const uint64_t down = CLOCKIVY_PRIME - line[i + 1];

        coins[i] = plus(coins[i], to >= from ? times(line[i + 1], to - from)
                                             : times(down, from - to));
    }
}

static void move_bytes(uint8_t *coins, uint8_t by)
{
    size_t i;

    for (i = 0; i < t; i++)
        coins[i] ^= byte_times(byte_line[i + 1], by);
}

/* The bids. */

/* The coins of the second auction's bid, from those of the first's. */
static void fit_bid(const uint64_t *table, const uint64_t *other_table,
                    const uint64_t *coins, uint64_t *fitting)
{
    size_t i;

    memcpy(fitting, coins, 2 * one.k * t * sizeof coins[0]);
    for (i = 0; i < 2 * one.k; i++)
        move(fitting + i * t, table[i], other_table[i]);
}

/* Every party is sent its shares of a bid. */
static void send_bid(struct auction *auction, size_t bid, const uint64_t *coins)
{
    const size_t len = 2 * auction->k;
    uint64_t own;

    for (own = 1; own <= n; own++) {
        uint64_t *const shares = auction->shares[own - 1];

        done(clockivy_split(n, own, auction->k, auction->tables + bid * len, len,
                            coins, len * t, shares, len), "split");
        done(clockivy_session_add(&auction->sessions[own - 1], bid + 1, shares, len), "add");
    }
}

static void compare_shares(void)
{
    const uint64_t more = one_more();
    uint64_t own;

    for (own = 1; own <= n; own++) {
        const uint64_t *const shares = one.shares[own - 1];
        const uint64_t *const others = other.shares[own - 1];

        compare(pools(own) ? &counts.pool_shares : &counts.other_shares,
                shares, others, 2 * one.k);
        if (pools(own) || own == more)
            compare(&counts.one_more_shares, shares, others, 2 * one.k);
    }
}

static void add_bids(void)
{
    static uint64_t coins[MAX_TABLE * MAX_T];
    static uint64_t fitting[MAX_TABLE * MAX_T];
    const size_t len = 2 * one.k;
    size_t bid;

    for (bid = 0; bid < one.bids; bid++) {
        const uint64_t *const table = one.tables + bid * len;
        const uint64_t *const other_table = other.tables + bid * len;

        check(clockivy_draw_words(clockivy_system_source, NULL, CLOCKIVY_PRIME, coins, len * t),
              "there are no coins");
        fit_bid(table, other_table, coins, fitting);
        send_bid(&one, bid, coins);
        send_bid(&other, bid, fitting);
        compare(&counts.amounts, table, other_table, len);
        compare_shares();
    }
}

/* The sheets. */

/* The probes by the totals in the clear; they are those of both auctions. */
static void list_probes(void)
{
    const uint64_t first = highest(&one);
    const uint64_t second = lowest(&one);
    uint64_t search;

    for (search = 1; search <= 2; search++) {
        uint64_t lo = 0;
        uint64_t hi = search == 1 ? one.k + 1 : first + 1;

        while (hi - lo > 1) {
            const uint64_t index = (lo + hi) / 2;
            const int up = search == 1 ? index <= first : second == 0 || index < second;

            probes[probe_count].search = search;
            probes[probe_count].index = index;
            probe_count++;
            if (up)
                lo = index;
            else
                hi = index;
        }
    }
}

/* What a probe compares: 2^59 + 2^32 plus one side minus the other, before the mask. */
static uint64_t unmasked(const struct auction *auction, size_t probe)
{
    const uint64_t middle = ((uint64_t)1 << 59) + ((uint64_t)1 << 32);
    const uint64_t index = probes[probe].index;

    if (probes[probe].search == 1)
        return middle + demand(auction, index) - supply(auction, index);
    return middle + supply(auction, index) - demand(auction, index);
}

/* Bit i of a number, bit 1 being the lowest. */
static uint8_t bit(uint64_t number, int i)
{
    return (uint8_t)((number >> (i - 1)) & 1);
}

/*
 * Moves the bytes of a probe from those that fit one mask to those that fit another,
 * where both give the same opened sum. The carries in the clear are those of
 * comparing each mask with the sum, bit by bit; the triple of a round hides a bit of
 * the mask and the carry before it, and moves with both.
 */
static void fit_bytes(uint8_t *bytes, uint64_t mask, uint64_t other_mask, uint64_t sum)
{
    const uint8_t start = bit(sum, 1);
    uint8_t carry = (uint8_t)(((bit(mask, 1) ^ start) & start) ^ start);
    uint8_t other_carry = (uint8_t)(((bit(other_mask, 1) ^ start) & start) ^ start);
    int i;

    for (i = 1; i <= 33; i++, bytes += t)
        move_bytes(bytes, bit(mask, i) ^ bit(other_mask, i));
    for (i = 2; i <= 32; i++, bytes += 2 + 3 * t) {
        const uint8_t s = bit(sum, i);
        const uint8_t alpha = bit(mask, i) ^ bit(other_mask, i);
        const uint8_t beta = carry ^ other_carry;
        const uint8_t gamma = byte_times(bytes[0], bytes[1]);

        bytes[0] ^= alpha;
        bytes[1] ^= beta;
        move_bytes(bytes + 2, alpha);
        move_bytes(bytes + 2 + t, beta);
        move_bytes(bytes + 2 + 2 * t, gamma ^ byte_times(bytes[0], bytes[1]));
        carry = (uint8_t)(((bit(mask, i) ^ s) & (carry ^ s)) ^ s);
        other_carry = (uint8_t)(((bit(other_mask, i) ^ s) & (other_carry ^ s)) ^ s);
    }
}

/*
 * What is dealt for a probe of the second auction, from what is dealt for the first's:
 * the mask moves by as much as the surplus, so that the opened sum stays. Gives 0
 * where the mask leaves its range, a chance of 1 in 2^25 at most.
 */
static int fit_probe(size_t probe, const clockivy_drawn *drawn, clockivy_drawn *fitting)
{
    const uint64_t sum = unmasked(&one, probe) - drawn->words[0];
    const uint64_t mask = unmasked(&other, probe) - sum;

    if (mask >= CLOCKIVY_MASK_LIMIT)
        return 0;
    *fitting = *drawn;
    fitting->words[0] = mask;
    move(fitting->words + 1, drawn->words[0], mask);
    fit_bytes(fitting->bytes, drawn->words[0], mask, sum);
    return 1;
}

/* The dealer writes every party's sheet for one probe. */
static void deal(struct auction *auction, size_t probe, const clockivy_drawn *drawn)
{
    uint64_t own;

    for (own = 1; own <= n; own++)
        done(clockivy_deal(n, own, WAY, drawn->words, 1 + t, drawn->bytes,
                           (size_t)CLOCKIVY_DEAL_BYTES_LEN(n, WAY),
                           auction->dealt[own - 1] + probe * SHEET, SHEET), "deal");
}

/* Sheets that no probe comes to keep their coins. */
static void deal_all(void)
{
    const size_t sheets = clockivy_sheet_count(one.k);
    clockivy_drawn drawn;
    clockivy_drawn fitting;
    size_t probe;
    int tries;

    memset(&drawn, 0, sizeof drawn);
    for (probe = 0; probe < sheets; probe++) {
        int fits = 0;

        for (tries = 0; tries < CLOCKIVY_TRIES && !fits; tries++) {
            check(clockivy_draw_probe(n, WAY, &drawn, clockivy_system_source, NULL),
                  "there are no coins");
            fitting = drawn;
            fits = probe >= probe_count || fit_probe(probe, &drawn, &fitting);
        }
        check(fits, "no mask stays in its range");
        deal(&one, probe, &drawn);
        deal(&other, probe, &fitting);
    }
}

static void compare_sheets(void)
{
    const size_t len = clockivy_sheets_len(one.k, WAY);
    const size_t used = probe_count * SHEET;
    uint64_t own;

    for (own = 1; own <= n; own++) {
        const uint64_t *const sheets = one.dealt[own - 1];
        const uint64_t *const others = other.dealt[own - 1];

        if (pools(own))
            compare(&counts.pool_sheets, sheets, others, len);
        compare(&counts.unused_sheets, sheets + used, others + used, len - used);
        done(clockivy_session_receive(&one.sessions[own - 1], sheets, len), "receive");
        done(clockivy_session_receive(&other.sessions[own - 1], others, len), "receive");
    }
}

/* The rounds. */

static void open_sessions(struct auction *auction)
{
    clockivy_seat seat;

    seat.n = n;
    seat.k = auction->k;
    seat.way = WAY;
    for (seat.own = 1; seat.own <= n; seat.own++)
        done(clockivy_session_open(&auction->sessions[seat.own - 1], &seat,
                                   auction->held[seat.own - 1], 2 * auction->k,
                                   auction->sheets[seat.own - 1],
                                   clockivy_sheets_len(auction->k, WAY)), "open");
}

/* Each party says its message, and each hears all of them. */
static void exchange_round(struct auction *auction, uint64_t *messages)
{
    static const uint8_t present[MAX_N] = {1, 1, 1, 1, 1, 1, 1, 1, 1};
    uint64_t own;

    for (own = 0; own < n; own++)
        done(clockivy_session_say(&auction->sessions[own], &messages[own], 1), "say");
    for (own = 0; own < n; own++)
        done(clockivy_session_hear(&auction->sessions[own], messages, (size_t)n,
                                   present, (size_t)n), "hear");
}

/* The verdict that a probe has left in a party's record. */
static uint64_t verdict(size_t probe, const clockivy_party *after)
{
    const uint64_t index = probes[probe].index;

    if (probes[probe].search == 2)
        return after->hi == index;
    return (after->search == 2 ? after->first : after->lo) == index;
}

/* A probe has ended: the totals that it hides, and every party's verdict. */
static void compare_probe(size_t probe)
{
    const uint64_t index = probes[probe].index;
    uint64_t own;

    counts.totals.words++;
    counts.totals.differ += demand(&one, index) != demand(&other, index)
        || supply(&one, index) != supply(&other, index);
    for (own = 0; own < n; own++) {
        const uint64_t opened = verdict(probe, &one.sessions[own].party);
        const uint64_t other_opened = verdict(probe, &other.sessions[own].party);

        compare(&counts.verdicts, &opened, &other_opened, 1);
    }
}

static void run_rounds(void)
{
    uint64_t messages[MAX_N];
    uint64_t other_messages[MAX_N];
    clockivy_outcome outcome;
    size_t probe = 0;

    while (clockivy_session_outcome(&one.sessions[0], &outcome) == CLOCKIVY_OUT_OF_TURN) {
        exchange_round(&one, messages);
        exchange_round(&other, other_messages);
        compare(&counts.messages, messages, other_messages, (size_t)n);
        if (one.sessions[0].party.probes > probe)
            compare_probe(probe++);
    }
    check(probe == probe_count, "the number of probes is another than the totals tell");
}

/* The index of the price, the probes made, and the totals, of every party. */
static void compare_outcomes(void)
{
    uint64_t own;

    for (own = 0; own < n; own++) {
        clockivy_outcome outcome;
        clockivy_outcome other_outcome;

        done(clockivy_session_outcome(&one.sessions[own], &outcome), "outcome");
        done(clockivy_session_outcome(&other.sessions[own], &other_outcome), "outcome");
        check(outcome.index == price_index(&one), "the price is another than the totals tell");
        compare(&counts.outcomes, &outcome.index, &other_outcome.index, 1);
        compare(&counts.outcomes, &outcome.probes, &other_outcome.probes, 1);
        compare(&counts.outcomes, &outcome.demand, &other_outcome.demand, 1);
        compare(&counts.outcomes, &outcome.supply, &other_outcome.supply, 1);
    }
}

/* What was found. */

static void print_count(const char *what, const struct count *count)
{
    printf("  %-40s %5lu, %lu differ\n", what, count->words, count->differ);
}

/* In what the two auctions differ, and in what they agree. */
static void report_auctions(void)
{
    const uint64_t index = price_index(&one);

    printf("two auctions of %d parties, %d prices, %d bids and %d probes\n", (int)n,
           (int)one.k, (int)one.bids, (int)probe_count);
    print_count("amounts bid", &counts.amounts);
    print_count("probes, by the totals there", &counts.totals);
    if (index == 0)
        printf("  no price clears in either\n");
    else
        printf("  price %d clears in both: demand %lu, supply %lu\n", (int)index,
               (unsigned long)demand(&one, index), (unsigned long)supply(&one, index));
}

/* What is the same, and what the pool would need; gives how many words are not. */
static unsigned long report(void)
{
    size_t i;

    report_auctions();
    printf("what the pool receives:");
    for (i = 0; i < t; i++)
        printf(" %s %d", i == 0 ? "party" : "and", (int)pool[i]);
    printf("\n");
    print_count("shares of the bids", &counts.pool_shares);
    print_count("words of its sheets", &counts.pool_sheets);
    print_count("words of unused sheets, of all parties", &counts.unused_sheets);
    print_count("words said in all rounds, by all parties", &counts.messages);
    print_count("verdicts, of all parties", &counts.verdicts);
    print_count("words of the outcome, of all parties", &counts.outcomes);
    printf("what it does not receive\n");
    print_count("shares of the bids, of the others", &counts.other_shares);
    print_count("shares of the bids, with one party more", &counts.one_more_shares);
    return counts.pool_shares.differ + counts.pool_sheets.differ + counts.unused_sheets.differ
        + counts.messages.differ + counts.verdicts.differ + counts.outcomes.differ;
}

int main(int count, char **words)
{
    unsigned long differ;

    check(count >= 3, "usage: rival ONE OTHER [N [PARTY...]]");
    read_auction(&one, words[1]);
    read_auction(&other, words[2]);
    choose_parties(count - 3, words + 3);
    agree();
    make_lines();
    list_probes();
    open_sessions(&one);
    open_sessions(&other);
    add_bids();
    deal_all();
    compare_sheets();
    run_rounds();
    compare_outcomes();
    differ = report();
    free(one.tables);
    free(other.tables);
    check(differ == 0, "the pool can tell the two apart");
    printf("the pool cannot tell which of the two was held\n");
    return EXIT_SUCCESS;
}
