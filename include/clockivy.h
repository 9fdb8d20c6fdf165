/*
 * clockivy.h - a sealed-bid uniform-price auction among parties who hold every
 * amount in shares. First the exported calls, flat and on plain words; below them,
 * inline, what programs mostly use: a party's session, which keeps its record,
 * totals and sheets together. Link with libclockivy.a, which is for x86-64.
 *
 * Terms
 *   n       the number of parties, 3 to 9; t is (n - 1) / 2 rounded down
 *   own     the number of the party that a call is for, 1 to n
 *   k       the number of listed prices, 1 to 1,024; indices start from 1
 *   last    the last round of a probe, 33 or 7: the way in which all probes of an
 *           auction are made, the same for its parties and its dealer
 *   entry   the number of an amount in a bidder's table, 1 to 2k
 *   P       the most probes of a search over k prices: log2(k + 1) rounded up
 *   prime   2^61 - 1; shares of amounts and their coefficients are below it
 *   totals  a party's shares of total demand at each price, then of supply
 *   sheet   a party's preprocessing for one probe: 127 words, or 220 where last is 7
 *   w       the words of a message: 1 in every round, but where last is 7 there are
 *           1, 32, 16, 8, 4, 2, 1 in rounds 1 to 7
 *   bidder  a bidder's number, 1 to 1,000, the same at every party
 *   roll    the marks of the bidders whose bids a party has added, 16 words:
 *           bidder b is bit b % 64 of word b / 64, bit 0 being the lowest
 *   present the marks of who was present in a round, n bytes, party 1's first:
 *           1 for a party whose message counts, 0 for one that was away
 *   record  where a party stands in the auction, CLOCKIVY_RECORD_LEN words
 *           (clockivy_party)
 *
 * Buffers
 *   Every buffer is the caller's and is lent for the length of the call; only a
 *   session keeps pointers, to its totals and sheets. Nothing is allocated, and
 *   there is no hidden state, so calls on different buffers may run at the same
 *   time. A slice is a pointer and then its length in elements, not bytes. The
 *   pointer is aligned, is not NULL even if the length is 0, and has that many
 *   elements behind it. A buffer that a call writes does not overlap another one
 *   lent to that call. A call needs nothing else to be safe: any number, length
 *   and contents is judged, and every call returns.
 *
 * Replies
 *   0 when the call is done, else the number of a refusal, for which
 *   clockivy_refusal_text has words. Each call lists its refusals in the order in
 *   which it judges them, and gives the first that applies. Where a record has not
 *   CLOCKIVY_RECORD_LEN words, what needs no record is judged all the same (n, own,
 *   k and last, bidder, the marks in present: 1), and then the reply is 2. A refused
 *   call has changed nothing.
 *
 * Before use
 *   Four uses give bids away. No exported call refuses them, and the session below
 *   refuses some of them: see docs/CALLERS.md, "Four uses that give bids away", before
 *   any use. Its other parts, and what to read each before:
 *     "A bid entry by entry"    clockivy_split_entry
 *     "A bid sent again"        clockivy_add, clockivy_session_add
 *     "A party that drops off"  clockivy_hear, clockivy_session_hear
 *     "Storing a session"       storing a record, clockivy_session_words and _resume
 *     "The two searches"        reading a probe's verdict off a record
 *     "Hours at the price"      clockivy_fill, clockivy_cleared_fill
 *     "The settlement page"     clockivy_settlement_write and _read
 *   What is secret, from whom, and what that rests on: docs/SECRECY.md.
 */
#ifndef CLOCKIVY_H
#define CLOCKIVY_H

#include <stddef.h>
#include <stdint.h>
#include <string.h>

#ifdef __cplusplus
extern "C" {
#endif

/*
 * The version of the exported calls and of the record that this header is for. It
 * grows by one whenever one of these changes. clockivy_version gives the library's
 * own; where the two differ, the library is another one than this header's.
 */
#define CLOCKIVY_VERSION 2

/* The replies. */
enum {
    CLOCKIVY_DONE = 0,
    CLOCKIVY_OUT_OF_RANGE = 1,        /* n, own, k, the way, entry, bidder, a mark of
                                         who was present, a field of the record, a
                                         word of a stored session or the price of a
                                         settlement page */
    CLOCKIVY_WRONG_LENGTH = 2,        /* a slice is not as long as stated */
    CLOCKIVY_OUT_OF_TURN = 3,         /* a bid after the first heard round, and in a
                                         session after the first message; a round
                                         when over; the answer before it is over */
    CLOCKIVY_COIN_OUT_OF_RANGE = 5,   /* a coefficient at or above the prime, a mask
                                         at or above 2^58; coins that were not drawn */
    CLOCKIVY_AMOUNT_TOO_LARGE = 6,    /* an amount above 4,194,303; on a settlement
                                         page, more got than wanted */
    CLOCKIVY_NOT_MONOTONE = 7,        /* demand rises or supply falls */
    CLOCKIVY_SHARE_OUT_OF_RANGE = 8,  /* an amount's share at or above the prime, a
                                         bit's share above 255; a sheet that was not
                                         dealt, or that stands in two places */
    CLOCKIVY_OWN_MESSAGE_DIFFERS = 9, /* a party that was present finds another message
                                         in its own place than it says */
    CLOCKIVY_INCONSISTENT = 10,       /* of those present a message out of range, or
                                         no polynomial of degree at most t through
                                         their messages */
    CLOCKIVY_SUM_OUT_OF_RANGE = 11,   /* the opened sum of round 1; an opened total of
                                         2^32 or more, or supply above demand */
    CLOCKIVY_VERDICT_NOT_BIT = 12,    /* the opened verdict is above 1 */
    CLOCKIVY_MALFORMED = 13,          /* rehearsal, and a settlement page that no
                                         amounts lay out to */
    CLOCKIVY_ALREADY_ENTERED = 14,    /* a bid of this bidder has been added */
    CLOCKIVY_TOO_FEW_PRESENT = 15,    /* fewer than t + 1 parties were present */
    CLOCKIVY_NOT_CLEARED = 16,        /* a fill before the totals are open, or without
                                         a price; the price where there is none */
    CLOCKIVY_PAGE_TOO_SHORT = 17      /* a lent page that cannot hold every line */
};

/* Limits. */
#define CLOCKIVY_PRIME ((((uint64_t)1) << 61) - 1)
#define CLOCKIVY_MASK_LIMIT (((uint64_t)1) << 58)
#define CLOCKIVY_MAX_PARTIES 9
#define CLOCKIVY_MAX_PRICES 1024
#define CLOCKIVY_MAX_BIDS 1000 /* the most bids held, and the highest bidder number */
#define CLOCKIVY_MAX_AMOUNT 4194303
#define CLOCKIVY_TOTAL_LIMIT (((uint64_t)1) << 32) /* D and S are below it */
#define CLOCKIVY_HIGHEST_PRICE 1000000 /* of an hour, in pence; the lowest is 1 */

/*
 * The ways in which a probe is made. The number of a way is that of the rounds of a
 * probe, and so its last round. Both come to the same verdict.
 */
#define CLOCKIVY_ROUNDS_33 33
#define CLOCKIVY_ROUNDS_7 7

/* The rounds after those of the probes, which are 1 to 33 or 1 to 7. */
#define CLOCKIVY_ROUND_DEMAND 34 /* total demand at the price is opened */
#define CLOCKIVY_ROUND_SUPPLY 35 /* total supply at the price is opened */
#define CLOCKIVY_ROUND_OVER 36   /* there is a price, and both totals are open */

/* Lengths, for n and k within their ranges; for another way they are 0. */
#define CLOCKIVY_ROLL_LEN 16
#define CLOCKIVY_PAIRS_LEN 32
#define CLOCKIVY_RECORD_LEN 64
#define CLOCKIVY_MAX_MESSAGE_LEN 32 /* of either way, in any round */
#define CLOCKIVY_THRESHOLD(n) (((n) - 1) / 2)
#define CLOCKIVY_TABLE_LEN(k) (2 * (k))
#define CLOCKIVY_COINS_LEN(n, k) (2 * (k) * CLOCKIVY_THRESHOLD(n))
#define CLOCKIVY_DEAL_WORDS_LEN(n) (1 + CLOCKIVY_THRESHOLD(n))
#define CLOCKIVY_DEAL_BYTES_LEN(n, way) \
    ((way) == CLOCKIVY_ROUNDS_33 ? 126 * CLOCKIVY_THRESHOLD(n) + 62 \
     : (way) == CLOCKIVY_ROUNDS_7 ? 219 * CLOCKIVY_THRESHOLD(n) + 124 : 0)
#define CLOCKIVY_SHEET_LEN(way) \
    ((way) == CLOCKIVY_ROUNDS_33 ? 127 : (way) == CLOCKIVY_ROUNDS_7 ? 220 : 0)

/* Lengths of a settlement: its amounts in words, those of its page in bytes. */
#define CLOCKIVY_SETTLEMENT_LEN 4000
#define CLOCKIVY_LINE_LEN 61 /* with its newline */
#define CLOCKIVY_MAX_PAGE_LEN 122000 /* of 2,000 lines */

/* The places of the record's words; the roll has 16 from its place on, the pairs 32. */
enum {
    CLOCKIVY_PLACE_N = 0,
    CLOCKIVY_PLACE_OWN = 1,
    CLOCKIVY_PLACE_K = 2,
    CLOCKIVY_PLACE_BIDS = 3,
    CLOCKIVY_PLACE_LO = 4,
    CLOCKIVY_PLACE_HI = 5,
    CLOCKIVY_PLACE_PROBES = 6,
    CLOCKIVY_PLACE_ROUND = 7,
    CLOCKIVY_PLACE_SUM = 8,
    CLOCKIVY_PLACE_CARRY = 9,
    CLOCKIVY_PLACE_ROLL = 10,
    CLOCKIVY_PLACE_SEARCH = 26,
    CLOCKIVY_PLACE_FIRST = 27,
    CLOCKIVY_PLACE_FIRST_PROBES = 28,
    CLOCKIVY_PLACE_DEMAND = 29,
    CLOCKIVY_PLACE_SUPPLY = 30,
    CLOCKIVY_PLACE_LAST = 31,
    CLOCKIVY_PLACE_PAIRS = 32
};

/* The library's version: CLOCKIVY_VERSION where it is this header's. */
uint64_t clockivy_version(void);

/*
 * Opens party own's session: zeroes totals and writes a new record.
 *
 *   totals  2k words, written
 *   record  CLOCKIVY_RECORD_LEN words, written: n, own, k, bids 0, lo 0,
 *           hi k + 1, probes 0, round 1, sum 0, carry 0, then the roll, 16
 *           words of 0, then search 1, first 0, first_probes 0, demand 0,
 *           supply 0, last, then the pairs, 32 words of 0
 *
 *   1  n, own, k or last is out of range
 *   2  totals has not 2k words, or record not CLOCKIVY_RECORD_LEN
 */
uint64_t clockivy_open(uint64_t n, uint64_t own, uint64_t k, uint64_t last,
                       uint64_t *totals, size_t totals_len,
                       uint64_t *record, size_t record_len);

/*
 * Writes party own's shares of a bid. Call it once for each party with the
 * same table and coins, and draw new coins for each bid: see docs/CALLERS.md,
 * "Four uses that give bids away".
 *
 *   table   2k amounts in tenths of an hour, 0 to 4,194,303: demand at indices
 *           1 to k, never rising, then supply, never falling
 *   coins   2kt words below the prime: t coefficients for each entry in turn
 *   shares  2k words, written
 *
 *   1  n, own or k is out of range
 *   2  table has not 2k words, coins not 2kt, or shares not 2k
 *   5  a coin is at or above the prime
 *   6  an amount is above 4,194,303
 *   7  demand rises or supply falls
 */
uint64_t clockivy_split(uint64_t n, uint64_t own, uint64_t k,
                        const uint64_t *table, size_t table_len,
                        const uint64_t *coins, size_t coins_len,
                        uint64_t *shares, size_t shares_len);

/*
 * Writes one of party own's shares of a bid from the t coins of that entry; no
 * other place changes. Call it once for each party with the same table and
 * coins, and draw new coins for each entry: see docs/CALLERS.md, "Four uses that
 * give bids away". All 2k entries, in any order, leave what clockivy_split writes
 * from the coins of entry 1, then those of entry 2, and so on. What that rests on
 * is in docs/CALLERS.md, "A bid entry by entry".
 *
 *   entry   which amount, 1 to 2k: demand at indices 1 to k, then supply
 *   table   2k amounts, all of the bid's, as in clockivy_split; the entry's is
 *           at place entry - 1
 *   coins   t words below the prime: the coefficients of this entry
 *   shares  2k words; the one at place entry - 1 is written
 *
 *   1  n, own or k is out of range, or entry is outside 1 to 2k
 *   2  table has not 2k words, coins not t, or shares not 2k
 *   5  a coin is at or above the prime
 *   6  an amount is above 4,194,303, the entry's or any other
 *   7  demand rises or supply falls, anywhere in the table
 */
uint64_t clockivy_split_entry(uint64_t n, uint64_t own, uint64_t k, uint64_t entry,
                              const uint64_t *table, size_t table_len,
                              const uint64_t *coins, size_t coins_len,
                              uint64_t *shares, size_t shares_len);

/*
 * Writes party own's sheet for one probe. Call it once for each party with the
 * same words and bytes, and draw new ones for each probe, 2P in all: see
 * docs/CALLERS.md, "Four uses that give bids away".
 *
 *   words  1 + t words: the mask, below 2^58, then its t coefficients, below
 *          the prime
 *   bytes  126t + 62 bytes, or 219t + 124 where last is 7: t coefficients for
 *          each of bits 1 to 33 of the mask, bit 1 being the lowest; then for each
 *          product alpha, beta, and t coefficients each for alpha, beta and gamma,
 *          which is alpha times beta. There is a product for each word that a party
 *          says in rounds 2 to last - 1, in this order: 31, or 62 where last is 7
 *   sheet  127 words, or 220 where last is 7, written: the mask's share, 33 bits'
 *          shares, then the shares of alpha, beta and gamma for each product
 *
 *   1  n, own or last is out of range
 *   2  words has not 1 + t words, bytes not CLOCKIVY_DEAL_BYTES_LEN(n, last), or
 *      sheet not CLOCKIVY_SHEET_LEN(last)
 *   5  the mask is at or above 2^58, or a coefficient at or above the prime
 */
uint64_t clockivy_deal(uint64_t n, uint64_t own, uint64_t last,
                       const uint64_t *words, size_t words_len,
                       const uint8_t *bytes, size_t bytes_len,
                       uint64_t *sheet, size_t sheet_len);

/*
 * Adds a bid's shares to the totals, modulo the prime, counts the bid and marks
 * its bidder on the roll. A bid that may not have arrived is sent again and
 * added in the same way: where the party has it, the reply is 14 and nothing
 * has changed. What that rests on is in docs/CALLERS.md, "A bid sent again".
 *
 * Call it only before the party has said its first message. A bid between that
 * and the first heard round is not refused, and is given away by the next
 * message: see docs/CALLERS.md, "Four uses that give bids away". A session
 * refuses it.
 *
 *   record  bids grows by one, and the roll has the bidder's mark
 *   totals  2k words, those that this record was opened with; each has its
 *           share added
 *   bidder  the bidder's number, 1 to 1,000
 *   shares  2k words
 *
 *   1   a field of the record is out of range, or bidder is
 *   2   record has not CLOCKIVY_RECORD_LEN words, or totals or shares not 2k
 *   3   a round has been heard: probes above 0 or round above 1
 *   14  the bidder is on the roll: a bid of it has been added
 *   8   a word of totals or of shares is at or above the prime
 */
uint64_t clockivy_add(uint64_t *record, size_t record_len,
                      uint64_t *totals, size_t totals_len,
                      uint64_t bidder,
                      const uint64_t *shares, size_t shares_len);

/*
 * Writes the party's message of the current round. The record stays. The same
 * record, totals and sheets give the same message, so that saying may be
 * repeated with these; but add no bid from now on, and never say a round again
 * with another record or other totals: see docs/CALLERS.md, "Four uses that give
 * bids away".
 *
 *   record   as it was last written
 *   totals   2k words
 *   sheets   2P sheets, clockivy_sheets_len(k, last) words: the party's for all
 *            probes in turn
 *   message  w words, written
 *
 *   1  a field of the record is out of range
 *   2  record has not CLOCKIVY_RECORD_LEN words, totals not 2k, sheets not
 *      clockivy_sheets_len(k, last), or message not w, which goes by the record's
 *      round also when the auction is over
 *   3  the auction is over
 *   8  round 1: a word of totals at the probed index is at or above the prime;
 *      rounds 1 to last: in the current sheet, the mask's share is at or above the
 *      prime or another word above 255; rounds 34 and 35, which read no sheet:
 *      the word of totals that is said is at or above the prime
 */
uint64_t clockivy_say(const uint64_t *record, size_t record_len,
                      const uint64_t *totals, size_t totals_len,
                      const uint64_t *sheets, size_t sheets_len,
                      uint64_t *message, size_t message_len);

/*
 * Takes the messages of the current round, of those who were present, and steps
 * the record to the next round. The last one of a probe opens the verdict and
 * moves lo or hi to the probed index, as in docs/CALLERS.md, "The two searches": in
 * the first search 1 moves lo, in the second 1 moves hi. Then the next probe begins,
 * or the second search in place of the first; or both have ended, and the totals at
 * the price are opened in rounds 34 and 35, or the auction is over for want of a
 * price.
 *
 * Any t + 1 messages open the round. All parties hear it with the same marks,
 * and a marked party has heard every round before: see docs/CALLERS.md, "A party
 * that drops off".
 *
 *   record    stepped
 *   totals    2k words
 *   sheets    clockivy_sheets_len(k, last) words
 *   messages  n times w words: party 1's w, then party 2's, and so on; where the
 *             mark is 0, anything
 *   present   n bytes, party 1's first: 1 for a party that was present, else 0
 *
 *   1   a field of the record is out of range, or a mark is above 1
 *   2   record has not CLOCKIVY_RECORD_LEN words, totals not 2k, sheets not
 *       clockivy_sheets_len(k, last), messages not n times w, or present not n bytes
 *   3   the auction is over
 *   15  fewer than t + 1 are marked
 *   8   as in clockivy_say; but the totals are judged only if the party itself is
 *       marked
 *   9   the party is marked, and its own place holds another message than it says
 *   10  a marked word is at or above the prime (rounds 1, 34 and 35), above 65,535
 *       (2 to last - 1) or above 255 (last); or no polynomial of degree at most t
 *       passes through the marked messages, word by word (rounds 2 to last - 1:
 *       through the low bytes, and through the high). With t + 1 of them there
 *       always is one
 *   11  round 1: the opened sum is outside 2^58 + 2 to 2^59 + 2^33 - 1; rounds 34
 *       and 35: the opened total is 2^32 or more; round 34: it is below the
 *       supply in the record, which is 0 unless somebody has put it there;
 *       round 35: it is above the demand in the record
 *   12  round last: the opened verdict is above 1
 */
uint64_t clockivy_hear(uint64_t *record, size_t record_len,
                       const uint64_t *totals, size_t totals_len,
                       const uint64_t *sheets, size_t sheets_len,
                       const uint64_t *messages, size_t messages_len,
                       const uint8_t *present, size_t present_len);

/*
 * Writes the index of the price and the number of probes made, of both searches
 * together, at most 2P. The index is the middle of those at which total demand
 * equals total supply, rounded down; where there are none, the highest at which
 * demand is above supply, or 0 for no price. The highest index at which demand
 * is at least supply is in the record, as first. Where there is a price, the
 * auction is over when the totals there are open too.
 *
 *   record  as it was last written
 *   index   one word, written
 *   probes  one word, written
 *
 *   1  a field of the record is out of range
 *   2  record has not CLOCKIVY_RECORD_LEN words
 *   3  the auction is not over
 */
uint64_t clockivy_answer(const uint64_t *record, size_t record_len,
                         uint64_t *index, uint64_t *probes);

/*
 * Writes what a buyer gets at the price: its amount times total supply, divided by
 * total demand and rounded down, and the remainder of that division; 0 and 0 where
 * total demand is 0. A seller sells all and needs no call. For a fleet to make
 * itself: see docs/CALLERS.md, "Hours at the price". A fleet that was told the two
 * totals and no record calls clockivy_cleared_fill.
 *
 *   record     of any party that is over
 *   amount     what the buyer wants at the price, in tenths of an hour: the one in
 *              its table at place index - 1, index being that of the answer
 *   tenths     one word, written: what it gets, in tenths of an hour
 *   remainder  one word, written: below total demand, or 0
 *
 *   1   a field of the record is out of range
 *   2   record has not CLOCKIVY_RECORD_LEN words
 *   16  the totals are not open yet, or there is no price
 *   6   amount is above 4,194,303
 */
uint64_t clockivy_fill(const uint64_t *record, size_t record_len, uint64_t amount,
                       uint64_t *tenths, uint64_t *remainder);

/*
 * Writes the lines of a settlement's page at a price, and how many bytes they are.
 * What page holds past them stays. It tells every bidder's amounts to whoever sees
 * it. What a line looks like, and who may make a page, is in docs/CALLERS.md, "The
 * settlement page".
 *
 *   price    of an hour, in pence, 1 to 1,000,000
 *   amounts  CLOCKIVY_SETTLEMENT_LEN words, in tenths of an hour: for bidders 1 to
 *            1,000 in turn wanted and got, buying, then wanted and got, selling
 *   page     any number of bytes, written from the first on; CLOCKIVY_MAX_PAGE_LEN
 *            are enough for any amounts
 *   written  one word, written: CLOCKIVY_LINE_LEN for each line
 *
 *   1   price is out of range
 *   2   amounts has not CLOCKIVY_SETTLEMENT_LEN words
 *   6   an amount is above 4,194,303, or one that was got is above the one wanted
 *   17  page has fewer bytes than the lines
 */
uint64_t clockivy_settlement_write(uint64_t price,
                                   const uint64_t *amounts, size_t amounts_len,
                                   uint8_t *page, size_t page_len,
                                   uint64_t *written);

/*
 * Writes the amounts whose settlement page at this price is the one lent. There is
 * one list of them at most. That it is what was bid and what an auction gave is
 * nothing that a page can tell: see docs/CALLERS.md, "The settlement page". The call
 * takes some 35 kB of stack; a thread with little needs room for that.
 *
 *   price    of an hour, in pence, 1 to 1,000,000: that of the page
 *   page     the bytes of the page, to its last newline; none where it has no line
 *   amounts  CLOCKIVY_SETTLEMENT_LEN words, written: 0 and 0 where there is no line
 *
 *   1   price is out of range
 *   2   amounts has not CLOCKIVY_SETTLEMENT_LEN words
 *   13  no amounts lay out to this page at this price: it has anything in another
 *       way than clockivy_settlement_write writes it
 */
uint64_t clockivy_settlement_read(uint64_t price,
                                  const uint8_t *page, size_t page_len,
                                  uint64_t *amounts, size_t amounts_len);

#ifdef __cplusplus
}
#endif

/*
 * A party's record by names. Every call judges the fields, but an older record
 * passes: see docs/CALLERS.md, "Storing a session" and "Four uses that give bids
 * away".
 *
 * A field is out of range (refusal 1) where n, own, k or last is; bids is not the
 * number of marks on the roll; the roll has a mark of no bidder, which is bit 0
 * of the first word or one past bidder 1,000, bits 41 to 63 of the last; round is
 * outside 34 to 36 where the searches have ended with a price, and outside 1 to last
 * where they have not; sum is at or above 2^59 + 2^33; carry is above 255, or a word
 * of pairs is, on either way; demand or supply is 2^32 or more, or supply above
 * demand; search is neither 1 nor 2. In the first search also where not
 * lo < hi <= k + 1; hi - lo is 1, since the second begins with that; probes is P
 * or more; first or first_probes is not 0. In the second where first is above k;
 * first_probes is above P or above probes; not lo < hi <= first + 1; probes -
 * first_probes, its own, are above the limit for first in place of k, or are equal
 * to it with hi - lo above 1.
 *
 * A probe's verdict can be read off the record that its last round leaves. In the
 * first search it is 1 where lo is the probed index now or, if that probe has
 * ended the search, where first is; in the second, where hi is.
 */
typedef struct clockivy_party {
    uint64_t n;      /* the number of parties */
    uint64_t own;    /* this party's number */
    uint64_t k;      /* the number of listed prices */
    uint64_t bids;   /* bids added: the number of marks on the roll */
    uint64_t lo;     /* the highest index known to have, in search 1, demand at
                        least supply, and in search 2 less supply than demand;
                        or 0 */
    uint64_t hi;     /* the lowest index known to have, in search 1, less demand
                        than supply, or k + 1; in search 2 supply at least
                        demand, or first + 1 */
    uint64_t probes; /* probes done, of both searches */
    uint64_t round;  /* the round to be said and heard next: 1 to last in a probe,
                        then, where there is a price, 34 and 35, and 36 when over */
    uint64_t sum;    /* the opened sum of this probe's round 1, else 0 */
    uint64_t carry;  /* where last is 33, this party's share of the carry, else 0 */
    uint64_t roll[CLOCKIVY_ROLL_LEN]; /* who is in: bidder b is bit b % 64, the
                                         lowest being bit 0, of roll[b / 64] */
    uint64_t search; /* which search is on: 1 or 2 */
    uint64_t first;  /* i, what the first search gave; 0 until it ends */
    uint64_t first_probes; /* the probes of the first search; 0 until it ends */
    uint64_t demand; /* D, total demand at the price; 0 until round 34 opens it */
    uint64_t supply; /* S, total supply at the price; 0 until round 35 opens it */
    uint64_t last;   /* the last round of a probe: 33 or 7 */
    uint64_t pairs[CLOCKIVY_PAIRS_LEN]; /* where last is 7, in rounds 3 to 7: this
                                           party's shares of the pairs that are left,
                                           then 0; else 0 */
} clockivy_party;

/* The struct is the record's words, in their order. */
typedef char clockivy_party_is_the_words
    [sizeof(clockivy_party) == CLOCKIVY_RECORD_LEN * sizeof(uint64_t) ? 1 : -1];

#if defined(__cplusplus) || (defined(__STDC_VERSION__) && __STDC_VERSION__ >= 199901L)
#define CLOCKIVY_INLINE static inline
#elif defined(__GNUC__)
#define CLOCKIVY_INLINE static __inline__
#else
#define CLOCKIVY_INLINE static
#endif

/* What a reply says in words. Any number has a text. */
CLOCKIVY_INLINE const char *clockivy_refusal_text(uint64_t reply)
{
    static const char none[] = "no reply of these calls";
    static const char *const texts[] = {
        "done",
        "refusal 1: a number, a mark or a field of the record is out of range",
        "refusal 2: a slice has the wrong length",
        "refusal 3: the call is out of turn",
        none,
        "refusal 5: a coin is out of range",
        "refusal 6: an amount is too large",
        "refusal 7: demand rises or supply falls",
        "refusal 8: a share is out of range",
        "refusal 9: the party's own message is not what it says",
        "refusal 10: the messages lie on no polynomial of the degree",
        "refusal 11: the opened sum or total is out of range",
        "refusal 12: the opened verdict is not a bit",
        "refusal 13: no amounts lay out to the page at this price",
        "refusal 14: a bid of this bidder has been added already",
        "refusal 15: too few parties were present",
        "refusal 16: no totals are open, or there is no price",
        "refusal 17: the page is too short for every line"
    };

    return reply < sizeof texts / sizeof texts[0] ? texts[reply] : none;
}

/*
 * P, the most probes of one search over k prices: the number of bits of k. Any
 * number may be asked about, here and below.
 */
CLOCKIVY_INLINE size_t clockivy_probe_limit(uint64_t k)
{
    size_t limit;
    for (limit = 0; k != 0; k >>= 1)
        limit++;
    return limit;
}

/* 2P, the sheets that a party is lent: one for each probe of both searches. */
CLOCKIVY_INLINE size_t clockivy_sheet_count(uint64_t k)
{
    return 2 * clockivy_probe_limit(k);
}

/* 1 where this is the number of a way, else 0. */
CLOCKIVY_INLINE int clockivy_is_way(uint64_t way)
{
    return way == CLOCKIVY_ROUNDS_33 || way == CLOCKIVY_ROUNDS_7;
}

/* The length of a party's sheets for all probes, in words; 0 for another way. */
CLOCKIVY_INLINE size_t clockivy_sheets_len(uint64_t k, uint64_t way)
{
    return CLOCKIVY_SHEET_LEN(way) * clockivy_sheet_count(k);
}

/* w, the length of a message of a round, in words; 0 for another way. */
CLOCKIVY_INLINE size_t clockivy_message_len(uint64_t way, uint64_t round)
{
    if (way == CLOCKIVY_ROUNDS_7 && round >= 2 && round <= 6)
        return (size_t)CLOCKIVY_MAX_MESSAGE_LEN >> (round - 2);
    return clockivy_is_way(way) ? 1 : 0;
}

/*
 * Writes UINT64_MAX in every place: no share, no coin and no sheet. A buffer that
 * starts so, and is then not written, is refused by whatever it is lent to; one
 * that starts from zeros is not, and gives bids away.
 */
CLOCKIVY_INLINE void clockivy_blank(uint64_t *words, size_t len)
{
    size_t i;

    for (i = 0; i < len; i++)
        words[i] = UINT64_MAX;
}

/* 1 where the roll marks this bidder, else 0. Any number may be asked about. */
CLOCKIVY_INLINE int clockivy_party_has_bid(const clockivy_party *party, uint64_t bidder)
{
    const uint64_t word = bidder / 64;

    return word < CLOCKIVY_ROLL_LEN && ((party->roll[word] >> (bidder % 64)) & 1) != 0;
}

/* Which party of which auction a session is for. */
typedef struct clockivy_seat {
    uint64_t n;
    uint64_t own;
    uint64_t k;
    uint64_t way; /* CLOCKIVY_ROUNDS_33 or CLOCKIVY_ROUNDS_7 */
} clockivy_seat;

/* 1 where n, k and the way are within their ranges, else 0. */
CLOCKIVY_INLINE int clockivy_is_auction(uint64_t n, uint64_t k, uint64_t way)
{
    return n >= 3 && n <= CLOCKIVY_MAX_PARTIES && k >= 1 && k <= CLOCKIVY_MAX_PRICES
        && clockivy_is_way(way);
}

/*
 * A party's session: its record and, in the caller's storage, the totals and the
 * sheets that belong to it. clockivy_session_open or clockivy_session_resume is the
 * first call on it; a refused one leaves none. The totals and the sheets stay where
 * they are for as long as the session is used, and nothing else writes them or the
 * fields. Never go on from a copy: two that speak from one sheet give bids away.
 *
 * The calls below judge in the order of the exported ones and list their refusals
 * so. A refusal changes nothing, of the session neither.
 */
typedef struct clockivy_session {
    clockivy_party party; /* where the party stands */
    uint64_t *totals;     /* the caller's, 2k words */
    size_t totals_len;
    uint64_t *sheets;     /* the caller's, clockivy_sheets_len(k, last) words */
    size_t sheets_len;
    int dealt;  /* 1 once sheets were received since it was opened or resumed */
    int spoken; /* 1 once a message was said or a round heard: no bid is added then */
} clockivy_session;

/* Keeps the caller's storage in a session. The sheets are blank. */
CLOCKIVY_INLINE void clockivy_session_keep(clockivy_session *session,
                                           uint64_t *totals, size_t totals_len,
                                           uint64_t *sheets, size_t sheets_len)
{
    clockivy_blank(sheets, sheets_len);
    session->totals = totals;
    session->totals_len = totals_len;
    session->sheets = sheets;
    session->sheets_len = sheets_len;
    session->dealt = 0;
}

/*
 * Opens a session: zeroes the totals and blanks the sheets, so that nothing is said
 * before sheets are received.
 *
 *   seat    n, own, k and the way
 *   totals  2k words, written
 *   sheets  clockivy_sheets_len(k, way) words, written
 *
 *   1  n, own, k or the way is out of range
 *   2  totals has not 2k words, or sheets not clockivy_sheets_len; or the library
 *      is of another version than this header, and its records of another length
 */
CLOCKIVY_INLINE uint64_t clockivy_session_open(clockivy_session *session,
                                               const clockivy_seat *seat,
                                               uint64_t *totals, size_t totals_len,
                                               uint64_t *sheets, size_t sheets_len)
{
    uint64_t reply;

    if (!clockivy_is_auction(seat->n, seat->k, seat->way)
        || seat->own < 1 || seat->own > seat->n)
        return CLOCKIVY_OUT_OF_RANGE;
    if (totals_len != CLOCKIVY_TABLE_LEN(seat->k)
        || sheets_len != clockivy_sheets_len(seat->k, seat->way)
        || clockivy_version() != CLOCKIVY_VERSION)
        return CLOCKIVY_WRONG_LENGTH;
    reply = clockivy_open(seat->n, seat->own, seat->k, seat->way, totals, totals_len,
                          (uint64_t *)&session->party, CLOCKIVY_RECORD_LEN);
    if (reply != CLOCKIVY_DONE)
        return reply;
    session->spoken = 0;
    clockivy_session_keep(session, totals, totals_len, sheets, sheets_len);
    return CLOCKIVY_DONE;
}

/* 1 where the words of a sheet are shares and not all of them are 0, else 0. */
CLOCKIVY_INLINE int clockivy_sheet_is_dealt(const uint64_t *sheet, size_t len)
{
    uint64_t any = 0;
    size_t i;

    for (i = 0; i < len; i++) {
        if (i == 0 ? sheet[i] >= CLOCKIVY_PRIME : sheet[i] > 255)
            return 0;
        any |= sheet[i];
    }
    return any != 0;
}

/*
 * Copies in the sheets that the dealer wrote for this party, for all 2P probes in
 * turn. No session has spoken from them before, but for this one where it was stored
 * and resumed: then they are the same again. That is nothing that a call can see;
 * see docs/CALLERS.md, "Four uses that give bids away".
 *
 *   words  clockivy_sheets_len(k, last) words
 *
 *   2  words has another length
 *   3  the session has received sheets, and said a message or heard a round
 *   8  in a sheet the mask's share is at or above the prime or another word above
 *      255, as where it is blank; a sheet is all zeros, and so was never dealt:
 *      everybody would read demand minus supply; or one sheet stands in two places,
 *      as where P sheets are lent twice over
 */
CLOCKIVY_INLINE uint64_t clockivy_session_receive(clockivy_session *session,
                                                  const uint64_t *words, size_t words_len)
{
    const size_t len = CLOCKIVY_SHEET_LEN(session->party.last);
    size_t i;
    size_t j;

    if (words_len != session->sheets_len
        || words_len != clockivy_sheets_len(session->party.k, session->party.last))
        return CLOCKIVY_WRONG_LENGTH;
    if (session->dealt && session->spoken)
        return CLOCKIVY_OUT_OF_TURN;
    for (i = 0; i < words_len; i += len) {
        if (!clockivy_sheet_is_dealt(words + i, len))
            return CLOCKIVY_SHARE_OUT_OF_RANGE;
        for (j = 0; j < i; j += len)
            if (memcmp(words + i, words + j, len * sizeof words[0]) == 0)
                return CLOCKIVY_SHARE_OUT_OF_RANGE;
    }
    memcpy(session->sheets, words, words_len * sizeof words[0]);
    session->dealt = 1;
    return CLOCKIVY_DONE;
}

/*
 * Adds a bid's shares, as clockivy_add; but once a message was said no bid is
 * added, as the next message would give it away.
 *
 *   bidder  the bidder's number, 1 to 1,000
 *   shares  2k words
 *
 *   1   a field of the record is out of range, or bidder is
 *   2   shares has not 2k words
 *   3   a message was said, or a round heard
 *   14  the bidder is on the roll: a bid of it has been added
 *   8   a word of the totals or of shares is at or above the prime
 */
CLOCKIVY_INLINE uint64_t clockivy_session_add(clockivy_session *session, uint64_t bidder,
                                              const uint64_t *shares, size_t shares_len)
{
    clockivy_party judged;

    if (!session->spoken)
        return clockivy_add((uint64_t *)&session->party, CLOCKIVY_RECORD_LEN,
                            session->totals, session->totals_len,
                            bidder, shares, shares_len);
    /* A record that has heard a round is judged alike, and then the reply is 3. */
    judged = session->party;
    if (judged.round == 1 && judged.probes == 0)
        judged.round = 2;
    return clockivy_add((uint64_t *)&judged, CLOCKIVY_RECORD_LEN,
                        session->totals, session->totals_len, bidder, shares, shares_len);
}

/*
 * w, the length of everybody's message of the current round, in words. A buffer of
 * CLOCKIVY_MAX_MESSAGE_LEN holds that of any round.
 */
CLOCKIVY_INLINE size_t clockivy_session_message_len(const clockivy_session *session)
{
    return clockivy_message_len(session->party.last, session->party.round);
}

/*
 * Writes the party's message of the current round. Until the round is heard, it is
 * the same whenever it is said. The session has spoken then, and takes no more bids.
 * Store it before the message leaves: see docs/CALLERS.md, "Storing a session".
 *
 *   message  clockivy_session_message_len words, written
 *
 *   1  a field of the record is out of range
 *   2  message has not clockivy_session_message_len words
 *   3  the auction is over
 *   8  as in clockivy_say; also where no sheets were received and the round reads one
 */
CLOCKIVY_INLINE uint64_t clockivy_session_say(clockivy_session *session,
                                              uint64_t *message, size_t message_len)
{
    const uint64_t reply = clockivy_say((const uint64_t *)&session->party, CLOCKIVY_RECORD_LEN,
                                        session->totals, session->totals_len,
                                        session->sheets, session->sheets_len,
                                        message, message_len);

    if (reply == CLOCKIVY_DONE)
        session->spoken = 1;
    return reply;
}

/*
 * Takes the messages of the current round, of those who were present, and steps to
 * the next round, as clockivy_hear. All parties hear a round with the same messages
 * and marks, and once: see docs/CALLERS.md, "A party that drops off".
 *
 *   messages  n messages of clockivy_session_message_len words each, party 1's first;
 *             where the mark is 0, as many words of anything
 *   present   n bytes, party 1's first: 1 for a party that was present, else 0
 *
 *   1   a field of the record is out of range, or a mark is above 1
 *   2   messages has not the words of n messages, or present not n bytes
 *   3   the auction is over
 *   15, 8, 9, 10, 11, 12  as in clockivy_hear
 */
CLOCKIVY_INLINE uint64_t clockivy_session_hear(clockivy_session *session,
                                               const uint64_t *messages, size_t messages_len,
                                               const uint8_t *present, size_t present_len)
{
    const uint64_t reply = clockivy_hear((uint64_t *)&session->party, CLOCKIVY_RECORD_LEN,
                                         session->totals, session->totals_len,
                                         session->sheets, session->sheets_len,
                                         messages, messages_len, present, present_len);

    if (reply == CLOCKIVY_DONE)
        session->spoken = 1;
    return reply;
}

/* What an auction comes to. None of it is secret. */
typedef struct clockivy_outcome {
    uint64_t index;  /* of the price, from 1; 0 where there is no price */
    uint64_t probes; /* made, of both searches */
    uint64_t demand; /* D, total demand at the price; 0 without one */
    uint64_t supply; /* S, total supply at the price; 0 without one */
} clockivy_outcome;

/*
 * Writes what the auction comes to, once it is over: see clockivy_answer.
 *
 *   1  a field of the record is out of range
 *   3  the auction is not over
 */
CLOCKIVY_INLINE uint64_t clockivy_session_outcome(const clockivy_session *session,
                                                  clockivy_outcome *outcome)
{
    uint64_t index;
    uint64_t probes;
    const uint64_t reply = clockivy_answer((const uint64_t *)&session->party,
                                           CLOCKIVY_RECORD_LEN, &index, &probes);

    if (reply != CLOCKIVY_DONE)
        return reply;
    outcome->index = index;
    outcome->probes = probes;
    outcome->demand = index == 0 ? 0 : session->party.demand;
    outcome->supply = index == 0 ? 0 : session->party.supply;
    return CLOCKIVY_DONE;
}

/*
 * Writes the price of an outcome from the list of prices, price 1 first. Without a
 * price it is refused, so that nobody reads a place before the list.
 *
 *   2   the list is shorter than the index of the price
 *   16  there is no price
 */
CLOCKIVY_INLINE uint64_t clockivy_outcome_price(const clockivy_outcome *outcome,
                                                const uint64_t *prices, size_t prices_len,
                                                uint64_t *price)
{
    if (outcome->index > prices_len)
        return CLOCKIVY_WRONG_LENGTH;
    if (outcome->index == 0)
        return CLOCKIVY_NOT_CLEARED;
    *price = prices[outcome->index - 1];
    return CLOCKIVY_DONE;
}

/*
 * Writes what a buyer gets by D and S alone, as clockivy_fill does by a record: for
 * a fleet that was told these two and nothing else.
 *
 *   demand     D, total demand at the price
 *   supply     S, total supply at the price
 *   amount     what the buyer wants at the price, in tenths of an hour
 *   tenths     one word, written: what it gets, in tenths of an hour
 *   remainder  one word, written: below D, or 0
 *
 *   1  D and S are no totals: one is 2^32 or more, or S is above D
 *   6  amount is above 4,194,303
 */
CLOCKIVY_INLINE uint64_t clockivy_cleared_fill(uint64_t demand, uint64_t supply,
                                               uint64_t amount,
                                               uint64_t *tenths, uint64_t *remainder)
{
    /* The record of an auction of one price that is over, for this call alone. */
    uint64_t record[CLOCKIVY_RECORD_LEN] = {0};

    record[CLOCKIVY_PLACE_N] = 3;
    record[CLOCKIVY_PLACE_OWN] = 1;
    record[CLOCKIVY_PLACE_K] = 1;
    record[CLOCKIVY_PLACE_HI] = 1;
    record[CLOCKIVY_PLACE_PROBES] = 2;
    record[CLOCKIVY_PLACE_ROUND] = CLOCKIVY_ROUND_OVER;
    record[CLOCKIVY_PLACE_SEARCH] = 2;
    record[CLOCKIVY_PLACE_FIRST] = 1;
    record[CLOCKIVY_PLACE_FIRST_PROBES] = 1;
    record[CLOCKIVY_PLACE_DEMAND] = demand;
    record[CLOCKIVY_PLACE_SUPPLY] = supply;
    record[CLOCKIVY_PLACE_LAST] = CLOCKIVY_ROUNDS_33;
    return clockivy_fill(record, CLOCKIVY_RECORD_LEN, amount, tenths, remainder);
}

/* What stands before the record in a stored session: the version, and spoken. */
#define CLOCKIVY_STORED_HEAD 2

/* The length of a stored session, in words; 0 where k is out of range. */
CLOCKIVY_INLINE size_t clockivy_session_words_len(uint64_t k)
{
    if (k < 1 || k > CLOCKIVY_MAX_PRICES)
        return 0;
    return CLOCKIVY_STORED_HEAD + CLOCKIVY_RECORD_LEN + CLOCKIVY_TABLE_LEN((size_t)k);
}

/*
 * Writes the session as words to store: the version, 1 where it has spoken and else
 * 0, the record, and the totals, as one. The Rust crate stores the same. They are as
 * secret as the session. The sheets are not among them: keep these where they came
 * from. When to store is in docs/CALLERS.md, "Storing a session".
 *
 *   words  clockivy_session_words_len(k) words, written
 *
 *   2  words has another length
 */
CLOCKIVY_INLINE uint64_t clockivy_session_words(const clockivy_session *session,
                                                uint64_t *words, size_t words_len)
{
    const size_t head = CLOCKIVY_STORED_HEAD + CLOCKIVY_RECORD_LEN;
    const size_t len = clockivy_session_words_len(session->party.k);

    if (len == 0 || words_len != len || session->totals_len != len - head)
        return CLOCKIVY_WRONG_LENGTH;
    words[0] = CLOCKIVY_VERSION;
    words[1] = session->spoken ? 1 : 0;
    memcpy(words + CLOCKIVY_STORED_HEAD, &session->party, sizeof session->party);
    memcpy(words + head, session->totals, (len - head) * sizeof words[0]);
    return CLOCKIVY_DONE;
}

/*
 * The session that was stored as these words, of the way that its record tells. Its
 * sheets are blank until they are received again, the same ones as before; rounds 34
 * and 35 read none.
 *
 * Resume only the newest words, and those only once. No call can see whether they
 * are. Older ones, or a second session from the same, use masks and triples again:
 * with other bids, messages or marks than before, that gives bids away. Words from
 * before the first message would even take a bid between two messages. See
 * docs/CALLERS.md, "Storing a session".
 *
 *   words   clockivy_session_words_len(k) words, k being that of the record
 *   totals  2k words, written
 *   sheets  clockivy_sheets_len(k, last) words, written, last being that of the record
 *
 *   1  the version is another or spoken is above 1, whatever follows these; k or last
 *      is out of range; the rest of the record is judged by the calls on it
 *   2  words, totals or sheets has another length, or the library is of another
 *      version; in words that are too few to hold a record, k and last are not judged
 */
CLOCKIVY_INLINE uint64_t clockivy_session_resume(clockivy_session *session,
                                                 const uint64_t *words, size_t words_len,
                                                 uint64_t *totals, size_t totals_len,
                                                 uint64_t *sheets, size_t sheets_len)
{
    const size_t head = CLOCKIVY_STORED_HEAD + CLOCKIVY_RECORD_LEN;
    uint64_t k;
    uint64_t last;

    if (words_len < CLOCKIVY_STORED_HEAD)
        return CLOCKIVY_WRONG_LENGTH;
    if (words[0] != CLOCKIVY_VERSION || words[1] > 1)
        return CLOCKIVY_OUT_OF_RANGE;
    if (words_len < head)
        return CLOCKIVY_WRONG_LENGTH;
    k = words[CLOCKIVY_STORED_HEAD + CLOCKIVY_PLACE_K];
    last = words[CLOCKIVY_STORED_HEAD + CLOCKIVY_PLACE_LAST];
    if (clockivy_session_words_len(k) == 0 || !clockivy_is_way(last))
        return CLOCKIVY_OUT_OF_RANGE;
    if (words_len != clockivy_session_words_len(k) || totals_len != words_len - head
        || sheets_len != clockivy_sheets_len(k, last)
        || clockivy_version() != CLOCKIVY_VERSION)
        return CLOCKIVY_WRONG_LENGTH;
    memcpy(&session->party, words + CLOCKIVY_STORED_HEAD, sizeof session->party);
    memcpy(totals, words + head, totals_len * sizeof words[0]);
    session->spoken = (int)words[1];
    clockivy_session_keep(session, totals, totals_len, sheets, sheets_len);
    return CLOCKIVY_DONE;
}

#endif /* CLOCKIVY_H */
