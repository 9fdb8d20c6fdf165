/*
 * Tries a party's session, on either way: every refusal of its calls, in their order,
 * and that a refused one has changed nothing, of the session neither; that no bid is
 * added once a message was said; that sheets which were not dealt, or stand in two
 * places, are not received; that every round has its own number of words, and each of
 * them counts; that a party which drops off before any round comes to stand where it
 * would have stood; and that auctions whose sessions are stored and resumed at every
 * round say the same words and come to the same outcome. Also the version, the
 * refusals' texts, the places of the record and blanks. What clockivy_cleared_fill
 * refuses is tried in fills.c, and a library of another version in limits.c.
 */
#include "check.h"
#include "clockivy_coins.h"

enum {
    N = 3,
    K = 2,
    TABLE = CLOCKIVY_TABLE_LEN(K),
    SHEETS = 4,
    STORED = CLOCKIVY_STORED_HEAD + CLOCKIVY_RECORD_LEN + TABLE,
    /* the most of either way */
    MAX_ROUNDS = CLOCKIVY_ROUNDS_33,
    MAX_SHEETS_LEN = SHEETS * CLOCKIVY_SHEET_LEN(CLOCKIVY_ROUNDS_7),
    MAX_MESSAGES_LEN = N * CLOCKIVY_MAX_MESSAGE_LEN
};

/* The way that is tried, the other one, and the words of a sheet and of all sheets. */
static struct {
    uint64_t way;
    uint64_t other;
    size_t sheet;
    size_t sheets;
} tried;

/* Numbers that no way has. */
static const uint64_t no_ways[] = {0, 1, 6, 8, 32, 34, ((uint64_t)1 << 32) + 7, UINT64_MAX};

enum { NO_WAYS = sizeof no_ways / sizeof no_ways[0] };

/* What one party keeps, and a word behind each buffer. */
struct kept {
    clockivy_session session;
    uint64_t totals[TABLE + 1];
    uint64_t sheets[MAX_SHEETS_LEN + 1];
};

static struct kept parties[N];

/* Party 1 as it was when it last changed rightly. */
static struct kept before;

/* The shares of a bid that all parties have added, and the sheets. */
static uint64_t shares[N * TABLE];
static uint64_t dealt[N * MAX_SHEETS_LEN];

static const uint64_t paying[TABLE] = {9, 5, 0, 4};
static const uint64_t selling[TABLE] = {0, 0, 1, 2};
static const uint8_t all_present[N] = {1, 1, 1};

static int refusals;

static void take_way(uint64_t way, uint64_t other)
{
    tried.way = way;
    tried.other = other;
    tried.sheet = CLOCKIVY_SHEET_LEN(way);
    tried.sheets = SHEETS * tried.sheet;
    check(clockivy_sheets_len(K, way) == tried.sheets, "the sheets are too few");
}

/* Lengths that sheets have not: those of some of them, one word off, the other way's. */
enum { OTHER_LENGTHS = 7 };

static void list_other_lengths(size_t *lengths)
{
    lengths[0] = 0;
    lengths[1] = tried.sheet;
    lengths[2] = tried.sheets / 2;
    lengths[3] = tried.sheets - tried.sheet;
    lengths[4] = tried.sheets - 1;
    lengths[5] = tried.sheets + 1;
    lengths[6] = clockivy_sheets_len(K, tried.other);
}

static void remember(void)
{
    before = parties[0];
}

/* A call for party 1 that is refused with this number, and has changed nothing. */
static void refused(uint64_t reply, uint64_t number, const char *call)
{
    if (reply != number) {
        fprintf(stderr, "%s: %s, and not %s\n", call, clockivy_refusal_text(reply),
                clockivy_refusal_text(number));
        exit(EXIT_FAILURE);
    }
    check(memcmp(&before, &parties[0], sizeof before) == 0,
          "a refused call has changed something");
    refusals++;
}

static uint64_t open_as(struct kept *kept, uint64_t n, uint64_t own, uint64_t k, uint64_t way,
                        size_t totals_len, size_t sheets_len)
{
    clockivy_seat seat;

    seat.n = n;
    seat.own = own;
    seat.k = k;
    seat.way = way;
    return clockivy_session_open(&kept->session, &seat, kept->totals, totals_len,
                                 kept->sheets, sheets_len);
}

static uint64_t receive(size_t i)
{
    return clockivy_session_receive(&parties[i].session, dealt + i * tried.sheets,
                                    tried.sheets);
}

/* All parties with one bid, of bidder 7, and with sheets. */
static void start(const uint64_t *table)
{
    size_t i;

    done(clockivy_draw_bid(N, K, table, TABLE, shares, N * TABLE,
                           clockivy_system_source, NULL), "draw_bid");
    done(clockivy_draw_sheets(N, K, tried.way, dealt, N * tried.sheets,
                              clockivy_system_source, NULL), "draw_sheets");
    for (i = 0; i < N; i++) {
        done(open_as(&parties[i], N, i + 1, K, tried.way, TABLE, tried.sheets), "open");
        done(clockivy_session_add(&parties[i].session, 7, shares + i * TABLE, TABLE), "add");
        done(receive(i), "receive");
    }
    remember();
}

/* The words that party 1 says in the current round. */
static size_t message_len(void)
{
    return clockivy_session_message_len(&parties[0].session);
}

/* What everybody says in the current round. */
static void say_all(uint64_t *messages)
{
    const size_t len = message_len();
    size_t i;

    for (i = 0; i < N; i++)
        done(clockivy_session_say(&parties[i].session, messages + i * len, len), "say");
}

static void hear_all(const uint64_t *messages)
{
    const size_t len = N * message_len();
    size_t i;

    for (i = 0; i < N; i++)
        done(clockivy_session_hear(&parties[i].session, messages, len, all_present, N),
             "hear");
}

/* So many rounds, or to the end where it comes first. */
static void exchange_rounds(uint64_t rounds)
{
    uint64_t messages[MAX_MESSAGES_LEN];
    clockivy_outcome outcome;

    for (; rounds > 0; rounds--) {
        if (clockivy_session_outcome(&parties[0].session, &outcome) == CLOCKIVY_DONE)
            break;
        say_all(messages);
        hear_all(messages);
    }
    remember();
}

static void try_texts(void)
{
    static const uint64_t none[] = {4, 18, 19, 255, 256, UINT64_MAX};
    const char *seen[18];
    uint64_t number;
    size_t count = 0;
    size_t i;

    check(clockivy_version() == CLOCKIVY_VERSION && CLOCKIVY_VERSION == 2,
          "the version is another");
    for (number = 1; number <= 17; number++) {
        const char *const text = clockivy_refusal_text(number);
        char head[16];

        if (number == 4)
            continue;
        sprintf(head, "refusal %d: ", (int)number);
        check(strncmp(text, head, strlen(head)) == 0 && strlen(text) > strlen(head),
              "a text is that of another refusal");
        for (i = 0; i < count; i++)
            check(strcmp(text + strlen(head), seen[i]) != 0, "two refusals have one text");
        seen[count++] = text + strlen(head);
    }
    check(strcmp(clockivy_refusal_text(CLOCKIVY_DONE), "done") == 0, "done has another text");
    for (i = 0; i < sizeof none / sizeof none[0]; i++)
        check(strcmp(clockivy_refusal_text(none[i]), "no reply of these calls") == 0,
              "a number that is no reply has another text");
}

/* Blanks are written in so many places, and are no coins, shares or sheets. */
static void try_blanks(void)
{
    uint64_t words[TABLE + 1];
    size_t len;
    size_t i;

    for (len = 0; len <= TABLE; len++) {
        memset(words, 0, sizeof words);
        clockivy_blank(words, len);
        for (i = 0; i <= TABLE; i++)
            check(words[i] == (i < len ? UINT64_MAX : 0), "a blank is missing or too many");
    }
    start(paying);
    refused(clockivy_split(N, 1, K, paying, TABLE, words, TABLE, parties[0].totals, TABLE),
            CLOCKIVY_COIN_OUT_OF_RANGE, "split");
    refused(clockivy_session_add(&parties[0].session, 8, words, TABLE),
            CLOCKIVY_SHARE_OUT_OF_RANGE, "add");
}

/* An opening that is refused with 1, whatever the lengths are. */
static void no_seat(uint64_t n, uint64_t own, uint64_t k, uint64_t way)
{
    refused(open_as(&parties[0], n, own, k, way, TABLE, tried.sheets),
            CLOCKIVY_OUT_OF_RANGE, "open");
    refused(open_as(&parties[0], n, own, k, way, 0, 0), CLOCKIVY_OUT_OF_RANGE, "open");
}

static void try_seats(void)
{
    static const uint64_t wrong[][3] = {
        {0, 1, K}, {2, 1, K}, {10, 1, K}, {UINT64_MAX, 1, K},
        {N, 0, K}, {N, N + 1, K}, {N, UINT64_MAX, K},
        {N, 1, 0}, {N, 1, CLOCKIVY_MAX_PRICES + 1}, {N, 1, UINT64_MAX},
        {N, 1, ((uint64_t)1 << 63) + K}
    };
    static const size_t totals_lens[] = {0, TABLE - 1, TABLE + 1};
    size_t lengths[OTHER_LENGTHS];
    size_t i;

    for (i = 0; i < sizeof wrong / sizeof wrong[0]; i++)
        no_seat(wrong[i][0], wrong[i][1], wrong[i][2], tried.way);
    for (i = 0; i < NO_WAYS; i++)
        no_seat(N, 1, K, no_ways[i]);
    for (i = 0; i < sizeof totals_lens / sizeof totals_lens[0]; i++)
        refused(open_as(&parties[0], N, 1, K, tried.way, totals_lens[i], tried.sheets),
                CLOCKIVY_WRONG_LENGTH, "open");
    list_other_lengths(lengths);
    for (i = 0; i < OTHER_LENGTHS; i++)
        refused(open_as(&parties[0], N, 1, K, tried.way, TABLE, lengths[i]),
                CLOCKIVY_WRONG_LENGTH, "open");
}

static void try_open(void)
{
    struct kept *const kept = &parties[0];
    size_t i;

    memset(parties, 0xA5, sizeof parties);
    remember();
    try_seats();
    done(open_as(kept, N, 1, K, tried.way, TABLE, tried.sheets), "open");
    for (i = 0; i < TABLE; i++)
        check(kept->totals[i] == 0, "a total is not 0");
    for (i = 0; i < tried.sheets; i++)
        check(kept->sheets[i] == UINT64_MAX, "a word of the sheets is not blank");
    for (i = 0; i < CLOCKIVY_PAIRS_LEN; i++)
        check(kept->session.party.pairs[i] == 0, "a session begins with pairs");
    check(kept->totals[TABLE] == before.totals[TABLE]
          && kept->sheets[tried.sheets] == before.sheets[tried.sheets],
          "opening wrote past a buffer");
    check(kept->session.party.last == tried.way, "a session begins on another way");
    check(!kept->session.spoken && !kept->session.dealt, "a session begins with a mark");
}

/* The fields stand in the places that have their names. */
static void try_places(void)
{
    static const int roll = CLOCKIVY_PLACE_ROLL;
    static const int pairs = CLOCKIVY_PLACE_PAIRS;
    clockivy_party party;
    uint64_t words[CLOCKIVY_RECORD_LEN];
    uint64_t i;

    for (i = 0; i < CLOCKIVY_RECORD_LEN; i++)
        words[i] = 100 + i;
    memcpy(&party, words, sizeof party);
    check(party.n == words[CLOCKIVY_PLACE_N] && party.own == words[CLOCKIVY_PLACE_OWN]
          && party.k == words[CLOCKIVY_PLACE_K] && party.bids == words[CLOCKIVY_PLACE_BIDS]
          && party.lo == words[CLOCKIVY_PLACE_LO] && party.hi == words[CLOCKIVY_PLACE_HI]
          && party.probes == words[CLOCKIVY_PLACE_PROBES]
          && party.round == words[CLOCKIVY_PLACE_ROUND]
          && party.sum == words[CLOCKIVY_PLACE_SUM]
          && party.carry == words[CLOCKIVY_PLACE_CARRY]
          && party.search == words[CLOCKIVY_PLACE_SEARCH]
          && party.first == words[CLOCKIVY_PLACE_FIRST]
          && party.first_probes == words[CLOCKIVY_PLACE_FIRST_PROBES]
          && party.demand == words[CLOCKIVY_PLACE_DEMAND]
          && party.supply == words[CLOCKIVY_PLACE_SUPPLY]
          && party.last == words[CLOCKIVY_PLACE_LAST]
          && memcmp(party.roll, words + roll, sizeof party.roll) == 0
          && memcmp(party.pairs, words + pairs, sizeof party.pairs) == 0,
          "a field stands in another place");
}

static void not_received(const uint64_t *words, size_t len, uint64_t number)
{
    refused(clockivy_session_receive(&parties[0].session, words, len), number, "receive");
}

/* Sheets in which a word of one of them is no share. */
static void try_no_shares(size_t sheet)
{
    static const size_t places[] = {0, 1, 33, 34, 126};
    const size_t listed = sizeof places / sizeof places[0];
    uint64_t words[MAX_SHEETS_LEN];
    size_t i;

    for (i = 0; i <= listed; i++) {
        const size_t place = i < listed ? places[i] : tried.sheet - 1;

        memcpy(words, dealt, sizeof words);
        words[sheet * tried.sheet + place] = place == 0 ? CLOCKIVY_PRIME : 256;
        not_received(words, tried.sheets, CLOCKIVY_SHARE_OUT_OF_RANGE);
        words[sheet * tried.sheet + place] = UINT64_MAX;
        not_received(words, tried.sheets, CLOCKIVY_SHARE_OUT_OF_RANGE);
    }
}

/* Sheets with one fault each. */
static void try_receive_faults(void)
{
    const size_t bytes = tried.sheet * sizeof(uint64_t);
    uint64_t words[MAX_SHEETS_LEN];
    size_t sheet;
    size_t i;

    for (sheet = 0; sheet < SHEETS; sheet++) {
        try_no_shares(sheet);
        memcpy(words, dealt, sizeof words);
        memset(words + sheet * tried.sheet, 0, bytes);
        not_received(words, tried.sheets, CLOCKIVY_SHARE_OUT_OF_RANGE);
        for (i = 0; i < sheet; i++) {
            memcpy(words, dealt, sizeof words);
            memcpy(words + sheet * tried.sheet, words + i * tried.sheet, bytes);
            not_received(words, tried.sheets, CLOCKIVY_SHARE_OUT_OF_RANGE);
        }
    }
    clockivy_blank(words, tried.sheets);
    not_received(words, tried.sheets, CLOCKIVY_SHARE_OUT_OF_RANGE);
}

static void try_receive(void)
{
    static uint64_t none[MAX_SHEETS_LEN + 1];
    clockivy_session *const session = &parties[0].session;
    const size_t bytes = tried.sheets * sizeof(uint64_t);
    size_t lengths[OTHER_LENGTHS];
    uint64_t most[MAX_SHEETS_LEN];
    uint64_t message;
    size_t i;

    start(paying);
    try_receive_faults();
    /* The largest shares there are, and sheets that differ in one word alone. */
    for (i = 0; i < tried.sheets; i++)
        most[i] = i % tried.sheet == 0 ? CLOCKIVY_PRIME - 1 : 255;
    for (i = 0; i < SHEETS; i++)
        most[i * tried.sheet + tried.sheet - 1] = i;
    done(clockivy_session_receive(session, most, tried.sheets), "receive");
    check(memcmp(parties[0].sheets, most, bytes) == 0, "other sheets were received");
    done(receive(0), "receive");
    check(memcmp(parties[0].sheets, dealt, bytes) == 0, "other sheets were received");
    check(parties[0].sheets[tried.sheets] == before.sheets[tried.sheets],
          "receiving wrote past the sheets");
    remember();

    list_other_lengths(lengths);
    for (i = 0; i < OTHER_LENGTHS; i++)
        not_received(none, lengths[i], CLOCKIVY_WRONG_LENGTH);
    done(clockivy_session_say(session, &message, 1), "say");
    remember();
    not_received(none, tried.sheet, CLOCKIVY_WRONG_LENGTH);
    not_received(none, tried.sheets, CLOCKIVY_OUT_OF_TURN);
    refused(receive(0), CLOCKIVY_OUT_OF_TURN, "receive");
}

static uint64_t add(uint64_t bidder, const uint64_t *words, size_t len)
{
    return clockivy_session_add(&parties[0].session, bidder, words, len);
}

/* What is refused with 1 and 2, whether the session has spoken or not. */
static void try_add_first(const uint64_t *none)
{
    static const uint64_t bidders[] = {0, CLOCKIVY_MAX_BIDS + 1, UINT64_MAX};
    static const size_t lengths[] = {0, TABLE - 1, TABLE + 1};
    uint64_t *const n = &parties[0].session.party.n;
    size_t i;

    for (i = 0; i < sizeof bidders / sizeof bidders[0]; i++) {
        refused(add(bidders[i], shares, TABLE), CLOCKIVY_OUT_OF_RANGE, "add");
        refused(add(bidders[i], none, 0), CLOCKIVY_OUT_OF_RANGE, "add");
    }
    *n = 2;
    remember();
    refused(add(7, none, 0), CLOCKIVY_OUT_OF_RANGE, "add");
    *n = N;
    remember();
    for (i = 0; i < sizeof lengths / sizeof lengths[0]; i++)
        refused(add(7, none, lengths[i]), CLOCKIVY_WRONG_LENGTH, "add");
}

/* Say, add, say: the bid is refused, and the message is the same. */
static void try_add(void)
{
    uint64_t none[TABLE + 1];
    uint64_t messages[N];
    uint64_t again;

    clockivy_blank(none, TABLE + 1);
    start(paying);
    try_add_first(none);
    refused(add(7, none, TABLE), CLOCKIVY_ALREADY_ENTERED, "add");
    refused(add(8, none, TABLE), CLOCKIVY_SHARE_OUT_OF_RANGE, "add");
    parties[0].totals[TABLE - 1] = CLOCKIVY_PRIME;
    remember();
    refused(add(8, shares, TABLE), CLOCKIVY_SHARE_OUT_OF_RANGE, "add");

    start(paying);
    say_all(messages);
    remember();
    try_add_first(none);
    refused(add(7, none, TABLE), CLOCKIVY_OUT_OF_TURN, "add");
    refused(add(8, shares, TABLE), CLOCKIVY_OUT_OF_TURN, "add");
    done(clockivy_session_say(&parties[0].session, &again, 1), "say");
    check(again == messages[0], "a message that is said again is another");
    hear_all(messages);
    remember();
    try_add_first(none);
    refused(add(8, shares, TABLE), CLOCKIVY_OUT_OF_TURN, "add");
}

/* A party that was away in round 1 has heard it, and adds and receives no more. */
static void try_late(void)
{
    static const uint8_t present[N] = {0, 1, 1};
    uint64_t messages[N] = {0, 0, 0};
    size_t i;

    start(paying);
    for (i = 1; i < N; i++)
        done(clockivy_session_say(&parties[i].session, &messages[i], 1), "say");
    done(clockivy_session_hear(&parties[0].session, messages, N, present, N), "hear");
    remember();
    refused(add(8, shares, TABLE), CLOCKIVY_OUT_OF_TURN, "add");
    refused(receive(0), CLOCKIVY_OUT_OF_TURN, "receive");
}

/* A saying that is refused has left the message as it was. */
static void not_said(size_t len, uint64_t number)
{
    uint64_t message[CLOCKIVY_MAX_MESSAGE_LEN + 1];
    size_t i;

    for (i = 0; i <= CLOCKIVY_MAX_MESSAGE_LEN; i++)
        message[i] = 77;
    refused(clockivy_session_say(&parties[0].session, message, len), number, "say");
    for (i = 0; i <= CLOCKIVY_MAX_MESSAGE_LEN; i++)
        check(message[i] == 77, "a refused saying wrote a message");
}

static void try_say(void)
{
    uint64_t *const carry = &parties[0].session.party.carry;

    start(paying);
    *carry = 256;
    remember();
    not_said(0, CLOCKIVY_OUT_OF_RANGE);
    not_said(1, CLOCKIVY_OUT_OF_RANGE);
    *carry = 0;
    /* No sheets yet. */
    done(open_as(&parties[0], N, 1, K, tried.way, TABLE, tried.sheets), "open");
    remember();
    not_said(0, CLOCKIVY_WRONG_LENGTH);
    not_said(2, CLOCKIVY_WRONG_LENGTH);
    not_said(1, CLOCKIVY_SHARE_OUT_OF_RANGE);
    start(paying);
    exchange_rounds(1000);
    not_said(0, CLOCKIVY_WRONG_LENGTH);
    not_said(2, CLOCKIVY_WRONG_LENGTH);
    not_said(1, CLOCKIVY_OUT_OF_TURN);
}

static void not_heard(const uint64_t *messages, size_t messages_len,
                      const uint8_t *present, size_t present_len, uint64_t number)
{
    refused(clockivy_session_hear(&parties[0].session, messages, messages_len,
                                  present, present_len), number, "hear");
}

static void try_hear(void)
{
    static const uint8_t two_marked[N] = {0, 1, 1};
    static const uint8_t one_marked[N + 1] = {1, 0, 0, 0};
    static const uint8_t no_mark[N] = {1, 2, 1};
    static const uint64_t twos[N] = {2, 2, 2};
    uint64_t messages[N + 1] = {0, 0, 0, 0}; /* of one word each: it is round 1 */

    start(paying);
    not_heard(messages, N, one_marked, N, CLOCKIVY_TOO_FEW_PRESENT);
    say_all(messages);
    remember();
    not_heard(messages, 0, no_mark, N, CLOCKIVY_OUT_OF_RANGE);
    not_heard(messages, N - 1, one_marked, N, CLOCKIVY_WRONG_LENGTH);
    not_heard(messages, N + 1, one_marked, N, CLOCKIVY_WRONG_LENGTH);
    not_heard(messages, N, one_marked, N - 1, CLOCKIVY_WRONG_LENGTH);
    not_heard(messages, N, one_marked, N + 1, CLOCKIVY_WRONG_LENGTH);
    not_heard(messages, N, one_marked, N, CLOCKIVY_TOO_FEW_PRESENT);
    messages[0] ^= 1;
    not_heard(messages, N, all_present, N, CLOCKIVY_OWN_MESSAGE_DIFFERS);
    messages[0] ^= 1;
    messages[1] ^= 1;
    not_heard(messages, N, all_present, N, CLOCKIVY_INCONSISTENT);
    not_heard(twos, N, two_marked, N, CLOCKIVY_SUM_OUT_OF_RANGE);
    clockivy_blank(parties[0].sheets, tried.sheets);
    remember();
    not_heard(messages, N, all_present, N, CLOCKIVY_SHARE_OUT_OF_RANGE);

    start(paying);
    exchange_rounds(tried.way - 1);
    not_heard(twos, N, two_marked, N, CLOCKIVY_VERDICT_NOT_BIT);
    exchange_rounds(1000);
    not_heard(twos, N, one_marked, N - 1, CLOCKIVY_WRONG_LENGTH);
    not_heard(twos, N, one_marked, N, CLOCKIVY_OUT_OF_TURN);
}

/* In every round of a probe, no other number of words is said or heard. */
static void try_message_lengths(void)
{
    static const uint64_t messages[MAX_MESSAGES_LEN + 1] = {0};
    uint64_t round;
    size_t len;

    start(paying);
    for (round = 1; round <= tried.way; round++) {
        check(parties[0].session.party.round == round
              && message_len() == clockivy_message_len(tried.way, round),
              "a round has another number of words");
        for (len = 0; len <= CLOCKIVY_MAX_MESSAGE_LEN + 1; len++)
            if (len != message_len())
                not_said(len, CLOCKIVY_WRONG_LENGTH);
        for (len = 0; len <= MAX_MESSAGES_LEN + 1; len++)
            if (len != N * message_len())
                not_heard(messages, len, all_present, N, CLOCKIVY_WRONG_LENGTH);
        exchange_rounds(1);
    }
}

/* When it is over for want of a price, the words go by the record's round all the same. */
static void try_over(void)
{
    static const uint64_t messages[MAX_MESSAGES_LEN + 1] = {0};
    clockivy_party *const party = &parties[0].session.party;
    uint64_t round;

    start(selling);
    exchange_rounds(1000);
    for (round = 1; round <= tried.way; round++) {
        party->round = round;
        remember();
        not_said(message_len() + 1, CLOCKIVY_WRONG_LENGTH);
        not_said(message_len(), CLOCKIVY_OUT_OF_TURN);
        not_heard(messages, N * message_len() + 1, all_present, N, CLOCKIVY_WRONG_LENGTH);
        not_heard(messages, N * message_len(), all_present, N, CLOCKIVY_OUT_OF_TURN);
    }
}

/* In every round of a probe, each word counts: another own one is 9, another's 10. */
static void try_each_word(void)
{
    static const uint64_t changes[] = {1, 128, 256, 32768, 65536, (uint64_t)1 << 63};
    uint64_t messages[MAX_MESSAGES_LEN];
    uint64_t round;
    size_t i;
    size_t j;

    start(paying);
    for (round = 1; round <= tried.way; round++) {
        const size_t len = message_len();

        say_all(messages);
        remember();
        for (i = 0; i < N * len; i++)
            for (j = 0; j < sizeof changes / sizeof changes[0]; j++) {
                messages[i] ^= changes[j];
                not_heard(messages, N * len, all_present, N,
                          i < len ? CLOCKIVY_OWN_MESSAGE_DIFFERS : CLOCKIVY_INCONSISTENT);
                messages[i] ^= changes[j];
            }
        hear_all(messages);
    }
}

/*
 * A party that drops off before any round of a probe and hears the rest of it late,
 * with anything in its own place, stands after each round where it stood when it was
 * present.
 */
static void try_away(void)
{
    static const uint8_t present[N] = {0, 1, 1};
    static uint64_t said[MAX_ROUNDS][MAX_MESSAGES_LEN];
    static clockivy_session stood[MAX_ROUNDS + 1];
    clockivy_session *const session = &parties[0].session;
    uint64_t from;
    uint64_t round;

    start(paying);
    stood[0] = *session;
    for (round = 0; round < tried.way; round++) {
        say_all(said[round]);
        hear_all(said[round]);
        stood[round + 1] = *session;
    }
    for (from = 0; from < tried.way; from++) {
        *session = stood[from];
        for (round = from; round < tried.way; round++) {
            const size_t len = message_len();

            clockivy_blank(said[round], len);
            done(clockivy_session_hear(session, said[round], N * len, present, N), "hear");
            check(memcmp(session, &stood[round + 1], sizeof *session) == 0,
                  "a party that was away stands elsewhere");
        }
    }
}

/* An outcome that is not given has left what was lent as it was. */
static void no_outcome(uint64_t number)
{
    clockivy_outcome outcome;
    clockivy_outcome as_it_was;

    memset(&outcome, 0xA5, sizeof outcome);
    as_it_was = outcome;
    refused(clockivy_session_outcome(&parties[0].session, &outcome), number, "outcome");
    check(memcmp(&outcome, &as_it_was, sizeof outcome) == 0, "a refusal wrote an outcome");
}

static void try_outcome(void)
{
    static const uint64_t prices[] = {80, 90};
    clockivy_outcome outcome;
    uint64_t price = 77;
    uint64_t *const demand = &parties[0].session.party.demand;

    start(paying);
    no_outcome(CLOCKIVY_OUT_OF_TURN);
    *demand = CLOCKIVY_TOTAL_LIMIT;
    remember();
    no_outcome(CLOCKIVY_OUT_OF_RANGE);
    start(paying);
    exchange_rounds(1000);
    done(clockivy_session_outcome(&parties[0].session, &outcome), "outcome");
    check(outcome.index == 2 && outcome.demand == 5 && outcome.supply == 4
          && outcome.probes == parties[0].session.party.probes, "the outcome is another");
    refused(clockivy_outcome_price(&outcome, prices, 0, &price), CLOCKIVY_WRONG_LENGTH,
            "outcome_price");
    refused(clockivy_outcome_price(&outcome, prices, 1, &price), CLOCKIVY_WRONG_LENGTH,
            "outcome_price");
    check(price == 77, "a refusal wrote a price");
    done(clockivy_outcome_price(&outcome, prices, 2, &price), "outcome_price");
    check(price == 90, "the price is another");

    start(selling);
    exchange_rounds(1000);
    *demand = 3; /* of no price */
    remember();
    done(clockivy_session_outcome(&parties[0].session, &outcome), "outcome");
    check(outcome.index == 0 && outcome.demand == 0 && outcome.supply == 0,
          "there is an outcome without a price");
    refused(clockivy_outcome_price(&outcome, prices, 0, &price), CLOCKIVY_NOT_CLEARED,
            "outcome_price");
    refused(clockivy_outcome_price(&outcome, prices, 2, &price), CLOCKIVY_NOT_CLEARED,
            "outcome_price");
    check(price == 90, "a refusal wrote a price");
}

/* A record that every call refuses with 1, whatever else it is lent. */
static void unsound(void)
{
    static const uint64_t messages[N] = {0};

    remember();
    not_said(0, CLOCKIVY_OUT_OF_RANGE);
    not_said(1, CLOCKIVY_OUT_OF_RANGE);
    not_heard(messages, 0, all_present, 0, CLOCKIVY_OUT_OF_RANGE);
    not_heard(messages, N, all_present, N, CLOCKIVY_OUT_OF_RANGE);
    refused(add(8, shares, 0), CLOCKIVY_OUT_OF_RANGE, "add");
    no_outcome(CLOCKIVY_OUT_OF_RANGE);
}

/* Rounds past the last, pairs that are no shares, and what is no way or the other one. */
static void try_record(void)
{
    clockivy_party *const party = &parties[0].session.party;
    uint64_t round;
    size_t i;

    start(paying);
    for (round = 0; round <= CLOCKIVY_ROUND_OVER + 1; round++) {
        party->round = round;
        remember();
        if (round >= 1 && round <= tried.way)
            no_outcome(CLOCKIVY_OUT_OF_TURN);
        else
            unsound();
    }
    party->round = 1;
    for (i = 0; i < CLOCKIVY_PAIRS_LEN; i++) {
        party->pairs[i] = 256;
        unsound();
        party->pairs[i] = UINT64_MAX;
        unsound();
        party->pairs[i] = 255;
        remember();
        no_outcome(CLOCKIVY_OUT_OF_TURN);
    }
    for (i = 0; i < NO_WAYS; i++) {
        party->last = no_ways[i];
        unsound();
        refused(receive(0), CLOCKIVY_WRONG_LENGTH, "receive");
    }
    party->last = tried.other;
    remember();
    not_said(1, CLOCKIVY_WRONG_LENGTH);
    refused(receive(0), CLOCKIVY_WRONG_LENGTH, "receive");
}

static uint64_t resume(struct kept *kept, const uint64_t *words, size_t len,
                       size_t totals_len, size_t sheets_len)
{
    return clockivy_session_resume(&kept->session, words, len, kept->totals, totals_len,
                                   kept->sheets, sheets_len);
}

/* What is stored, and the refusals of storing. */
static void try_words(void)
{
    static const size_t lengths[] = {0, 1, STORED - 1, STORED + 1};
    static const uint64_t no_k[] = {0, CLOCKIVY_MAX_PRICES + 1, UINT64_MAX};
    uint64_t words[STORED + 1];
    size_t i;

    for (i = 0; i < sizeof no_k / sizeof no_k[0]; i++)
        check(clockivy_session_words_len(no_k[i]) == 0, "a k out of range has a length");
    check(clockivy_session_words_len(K) == STORED
          && clockivy_session_words_len(CLOCKIVY_MAX_PRICES) == STORED - TABLE + 2048,
          "stored words have another length");
    start(paying);
    memset(words, 0, sizeof words);
    for (i = 0; i < sizeof lengths / sizeof lengths[0]; i++)
        refused(clockivy_session_words(&parties[0].session, words, lengths[i]),
                CLOCKIVY_WRONG_LENGTH, "words");
    for (i = 0; i <= STORED; i++)
        check(words[i] == 0, "a refused storing wrote words");
    done(clockivy_session_words(&parties[0].session, words, STORED), "words");
    check(words[0] == CLOCKIVY_VERSION && words[1] == 0 && words[STORED] == 0
          && memcmp(words + 2, &parties[0].session.party, sizeof(clockivy_party)) == 0
          && memcmp(words + 2 + CLOCKIVY_RECORD_LEN, parties[0].totals,
                    TABLE * sizeof words[0]) == 0, "other words are stored");
    exchange_rounds(1);
    done(clockivy_session_words(&parties[0].session, words, STORED), "words");
    check(words[1] == 1, "a session that has spoken is stored as one that has not");
}

/* Words that are refused with 1. Where they hold no record, they are for its words 2. */
static void not_resumed(uint64_t *words, size_t place, uint64_t word)
{
    const uint64_t cut_off = place < CLOCKIVY_STORED_HEAD ? CLOCKIVY_OUT_OF_RANGE
                                                          : CLOCKIVY_WRONG_LENGTH;
    const uint64_t right = words[place];

    words[place] = word;
    refused(resume(&parties[0], words, STORED, TABLE, tried.sheets), CLOCKIVY_OUT_OF_RANGE,
            "resume");
    refused(resume(&parties[0], words, STORED - TABLE, 0, 0), CLOCKIVY_OUT_OF_RANGE,
            "resume");
    refused(resume(&parties[0], words, STORED - TABLE - 1, TABLE, tried.sheets), cut_off,
            "resume");
    refused(resume(&parties[0], words, CLOCKIVY_STORED_HEAD, 0, 0), cut_off, "resume");
    refused(resume(&parties[0], words, CLOCKIVY_STORED_HEAD - 1, 0, 0), CLOCKIVY_WRONG_LENGTH,
            "resume");
    words[place] = right;
}

/* The refusals of resuming. */
static void try_resume_faults(uint64_t *words)
{
    enum {
        PLACE_K = CLOCKIVY_STORED_HEAD + CLOCKIVY_PLACE_K,
        PLACE_LAST = CLOCKIVY_STORED_HEAD + CLOCKIVY_PLACE_LAST
    };
    static const size_t lengths[][2] = {
        {STORED - 1, TABLE}, {STORED + 1, TABLE}, {STORED, TABLE - 1}, {STORED, TABLE + 1},
        {STORED, 0}
    };
    static const uint64_t wrong[][2] = {
        {0, 0}, {0, CLOCKIVY_VERSION - 1}, {0, CLOCKIVY_VERSION + 1}, {1, 2}, {1, UINT64_MAX},
        {PLACE_K, 0}, {PLACE_K, 1025}, {PLACE_K, UINT64_MAX},
        {PLACE_K, ((uint64_t)1 << 63) + K}
    };
    size_t sheets_lens[OTHER_LENGTHS];
    size_t i;

    for (i = 0; i < sizeof lengths / sizeof lengths[0]; i++)
        refused(resume(&parties[0], words, lengths[i][0], lengths[i][1], tried.sheets),
                CLOCKIVY_WRONG_LENGTH, "resume");
    list_other_lengths(sheets_lens);
    for (i = 0; i < OTHER_LENGTHS; i++)
        refused(resume(&parties[0], words, STORED, TABLE, sheets_lens[i]),
                CLOCKIVY_WRONG_LENGTH, "resume");
    for (i = 0; i < sizeof wrong / sizeof wrong[0]; i++)
        not_resumed(words, (size_t)wrong[i][0], wrong[i][1]);
    for (i = 0; i < NO_WAYS; i++)
        not_resumed(words, PLACE_LAST, no_ways[i]);
    /* The other way is one, and these are not its sheets. */
    words[PLACE_LAST] = tried.other;
    refused(resume(&parties[0], words, STORED, TABLE, tried.sheets), CLOCKIVY_WRONG_LENGTH,
            "resume");
    words[PLACE_LAST] = tried.way;
}

/* A session of version 1, whose record had 31 words, of any number of prices. */
static void try_older(void)
{
    enum { HEAD = CLOCKIVY_STORED_HEAD + 31 };
    static uint64_t words[HEAD + CLOCKIVY_TABLE_LEN(CLOCKIVY_MAX_PRICES)];
    uint64_t k;

    words[0] = 1;
    for (k = 1; k <= CLOCKIVY_MAX_PRICES; k++) {
        words[CLOCKIVY_STORED_HEAD + CLOCKIVY_PLACE_K] = k;
        refused(resume(&parties[0], words, HEAD + CLOCKIVY_TABLE_LEN((size_t)k), TABLE,
                       tried.sheets), CLOCKIVY_OUT_OF_RANGE, "resume");
    }
}

/* Resuming, and receiving after it. */
static void try_resume(void)
{
    uint64_t words[STORED + 1];
    size_t i;

    start(paying);
    exchange_rounds(1);
    words[STORED] = 0;
    done(clockivy_session_words(&parties[0].session, words, STORED), "words");
    try_resume_faults(words);
    try_older();
    done(resume(&parties[0], words, STORED, TABLE, tried.sheets), "resume");
    check(parties[0].session.party.last == tried.way, "a session is resumed on another way");
    for (i = 0; i < tried.sheets; i++)
        check(parties[0].sheets[i] == UINT64_MAX, "a resumed session has sheets");
    remember();
    not_said(message_len(), CLOCKIVY_SHARE_OUT_OF_RANGE);
    refused(add(8, shares, TABLE), CLOCKIVY_OUT_OF_TURN, "add");
    done(receive(0), "receive");
    remember();
    refused(receive(0), CLOCKIVY_OUT_OF_TURN, "receive");
}

/* Party i goes on from stored words, in storage that held other things. */
static void store_and_resume(size_t i)
{
    uint64_t words[STORED];
    clockivy_party as_it_was;
    int spoken;

    as_it_was = parties[i].session.party;
    spoken = parties[i].session.spoken;
    done(clockivy_session_words(&parties[i].session, words, STORED), "words");
    memset(&parties[i], 0xA5, sizeof parties[i]);
    done(resume(&parties[i], words, STORED, TABLE, tried.sheets), "resume");
    check(memcmp(&parties[i].session.party, &as_it_was, sizeof as_it_was) == 0
          && parties[i].session.spoken == spoken, "a resumed session is another");
    done(receive(i), "receive");
}

/* One auction, and again with all sessions resumed before each message and each hearing. */
static void try_resumed(const uint64_t *table)
{
    static uint64_t said[MAX_ROUNDS * SHEETS + 2][MAX_MESSAGES_LEN];
    static struct kept opened[N];
    uint64_t messages[MAX_MESSAGES_LEN];
    clockivy_outcome outcome;
    clockivy_outcome resumed;
    size_t rounds = 0;
    size_t round;
    size_t i;

    start(table);
    memcpy(opened, parties, sizeof opened);
    while (clockivy_session_outcome(&parties[0].session, &outcome) != CLOCKIVY_DONE) {
        say_all(said[rounds]);
        hear_all(said[rounds]);
        rounds++;
    }
    memcpy(parties, opened, sizeof parties);
    for (round = 0; round < rounds; round++) {
        for (i = 0; i < N; i++)
            store_and_resume(i);
        say_all(messages);
        check(memcmp(messages, said[round], N * message_len() * sizeof messages[0]) == 0,
              "a resumed session says something else");
        for (i = 0; i < N; i++)
            store_and_resume(i);
        hear_all(messages);
    }
    for (i = 0; i < N; i++) {
        store_and_resume(i);
        done(clockivy_session_outcome(&parties[i].session, &resumed), "outcome");
        check(memcmp(&outcome, &resumed, sizeof outcome) == 0,
              "a resumed session comes to something else");
    }
    printf("index %d after %d rounds, resumed at each\n", (int)outcome.index, (int)rounds);
}

static void try_way(uint64_t way, uint64_t other)
{
    take_way(way, other);
    try_blanks();
    try_open();
    try_receive();
    try_add();
    try_late();
    try_say();
    try_hear();
    try_message_lengths();
    try_over();
    try_each_word();
    try_away();
    try_outcome();
    try_record();
    try_words();
    try_resume();
    try_resumed(paying);
    try_resumed(selling);
}

int main(void)
{
    try_texts();
    try_places();
    try_way(CLOCKIVY_ROUNDS_33, CLOCKIVY_ROUNDS_7);
    try_way(CLOCKIVY_ROUNDS_7, CLOCKIVY_ROUNDS_33);
    printf("%d refusals of a session\n", refusals);
    return EXIT_SUCCESS;
}
