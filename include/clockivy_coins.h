/*
 * clockivy_coins.h - coins from the system, for a bidder that splits its bid and for
 * a dealer. For Linux: it draws by getrandom of <sys/random.h>. Elsewhere, or with
 * another generator, lend a source of your own to the same calls. All of it is inline
 * over clockivy.h, whose Terms, Buffers and Replies hold here too, but that a refusal
 * after the first draw leaves blanks where it says so.
 *
 * Coins are uniform over their range, independent, and used once. Whoever knows or
 * guesses them reads the amounts that they hide, and nothing tells: see
 * docs/CALLERS.md, "Coins" and "Four uses that give bids away".
 */
#ifndef CLOCKIVY_COINS_H
#define CLOCKIVY_COINS_H

#include <errno.h>
#include <sys/random.h>

#include "clockivy.h"

/*
 * A source of coins: writes 64 random bits and gives 1, or gives 0 where none can be
 * had. The state is whatever the source needs, and may be NULL where it needs none.
 */
typedef int (*clockivy_source)(void *state, uint64_t *word);

/* How often something is tried that may fail by chance. */
#define CLOCKIVY_TRIES 64

/* Overwrites what is not needed any more, in a way that compilers do not leave out. */
CLOCKIVY_INLINE void clockivy_wipe(void *secret, size_t bytes)
{
    volatile unsigned char *const place = (volatile unsigned char *)secret;
    size_t i;

    for (i = 0; i < bytes; i++)
        place[i] = 0;
}

/*
 * The system's source. It needs no state. Early after a start of the machine it waits
 * until the system has gathered enough. An interrupted wait is taken up again, but
 * not for ever.
 */
CLOCKIVY_INLINE int clockivy_system_source(void *state, uint64_t *word)
{
    int tries;

    (void)state;
    for (tries = 0; tries < CLOCKIVY_TRIES; tries++) {
        const ssize_t got = getrandom(word, sizeof *word, 0);

        if (got == (ssize_t)sizeof *word)
            return 1;
        if (got >= 0 || errno != EINTR)
            return 0;
    }
    return 0;
}

/*
 * Draws a word below limit, each as likely as any other: as many low bits as
 * limit - 1 has are kept, and drawn again where they are limit or more. Gives 1; or 0,
 * and writes nothing, where limit is 0, the source fails, or 64 draws were of no use:
 * by chance that is less likely than one in 2^64, so such a source is none.
 */
CLOCKIVY_INLINE int clockivy_draw_below(clockivy_source source, void *state,
                                        uint64_t limit, uint64_t *word)
{
    uint64_t low_bits = limit - 1;
    uint64_t drawn = 0;
    int found = 0;
    int shift;
    int tries;

    if (limit == 0)
        return 0;
    for (shift = 1; shift < 64; shift *= 2)
        low_bits |= low_bits >> shift;
    for (tries = 0; tries < CLOCKIVY_TRIES && !found; tries++) {
        if (!source(state, &drawn))
            break;
        drawn &= low_bits;
        found = drawn < limit;
    }
    if (found)
        *word = drawn;
    clockivy_wipe(&drawn, sizeof drawn);
    return found;
}

/* Draws words below limit, so many. Gives 1, or 0 where one cannot be had. */
CLOCKIVY_INLINE int clockivy_draw_words(clockivy_source source, void *state,
                                        uint64_t limit, uint64_t *words, size_t len)
{
    size_t i;

    for (i = 0; i < len; i++)
        if (!clockivy_draw_below(source, state, limit, &words[i]))
            return 0;
    return 1;
}

/* Draws bytes, eight from each word of the source. Gives 1, or 0 where it fails. */
CLOCKIVY_INLINE int clockivy_draw_bytes(clockivy_source source, void *state,
                                        uint8_t *bytes, size_t len)
{
    uint64_t drawn = 0;
    size_t i;

    for (i = 0; i < len; i++) {
        if (i % 8 == 0 && !source(state, &drawn))
            break;
        bytes[i] = (uint8_t)(drawn >> (8 * (i % 8)));
    }
    clockivy_wipe(&drawn, sizeof drawn);
    return i == len;
}

/*
 * Draws t coins and writes the shares of one entry for all n parties from them. What
 * was drawn is gathered in drawn, to tell a source of zeros.
 */
CLOCKIVY_INLINE uint64_t clockivy_draw_entry(uint64_t n, uint64_t k, uint64_t entry,
                                             const uint64_t *table, uint64_t *shares,
                                             clockivy_source source, void *state,
                                             uint64_t *drawn)
{
    const size_t t = (size_t)CLOCKIVY_THRESHOLD(n);
    const size_t len = CLOCKIVY_TABLE_LEN((size_t)k);
    uint64_t coins[CLOCKIVY_THRESHOLD(CLOCKIVY_MAX_PARTIES)];
    uint64_t reply = CLOCKIVY_COIN_OUT_OF_RANGE;
    uint64_t own;
    size_t i;

    if (clockivy_draw_words(source, state, CLOCKIVY_PRIME, coins, t)) {
        for (i = 0; i < t; i++)
            *drawn |= coins[i];
        reply = CLOCKIVY_DONE;
    }
    for (own = 1; own <= n && reply == CLOCKIVY_DONE; own++)
        reply = clockivy_split_entry(n, own, k, entry, table, len, coins, t,
                                     shares + (own - 1) * len, len);
    clockivy_wipe(coins, sizeof coins);
    return reply;
}

/*
 * Splits a bid for all parties, with t new coins for each entry. The coins are used
 * for all n parties and wiped before those of the next entry are drawn.
 *
 *   table   2k amounts, as in clockivy_split
 *   shares  n times 2k words, written: party 1's 2k first
 *
 *   1  n or k is out of range
 *   2  table has not 2k words, or shares not n times 2k; or the library is of another
 *      version than this header
 *   5  the source failed, or all coins of the bid were 0, which were not drawn
 *   6  an amount is above 4,194,303
 *   7  demand rises or supply falls
 *
 * 1 and 2 change nothing. 5, 6 and 7 leave all shares blank (clockivy_blank), so that
 * nobody can add them. The table is judged with the first entry, once its coins are
 * drawn; where that is 6 or 7, no more are drawn.
 */
CLOCKIVY_INLINE uint64_t clockivy_draw_bid(uint64_t n, uint64_t k,
                                           const uint64_t *table, size_t table_len,
                                           uint64_t *shares, size_t shares_len,
                                           clockivy_source source, void *state)
{
    uint64_t drawn = 0;
    uint64_t reply = CLOCKIVY_DONE;
    uint64_t entry;

    /* A bid is split alike on either way. */
    if (!clockivy_is_auction(n, k, CLOCKIVY_ROUNDS_33))
        return CLOCKIVY_OUT_OF_RANGE;
    if (table_len != CLOCKIVY_TABLE_LEN(k) || shares_len != n * CLOCKIVY_TABLE_LEN(k)
        || clockivy_version() != CLOCKIVY_VERSION)
        return CLOCKIVY_WRONG_LENGTH;
    clockivy_blank(shares, shares_len);
    for (entry = 1; entry <= CLOCKIVY_TABLE_LEN(k) && reply == CLOCKIVY_DONE; entry++)
        reply = clockivy_draw_entry(n, k, entry, table, shares, source, state, &drawn);
    if (reply == CLOCKIVY_DONE && drawn == 0)
        reply = CLOCKIVY_COIN_OUT_OF_RANGE;
    if (reply != CLOCKIVY_DONE)
        clockivy_blank(shares, shares_len);
    return reply;
}

/*
 * What the dealer draws for one probe: for nine parties and 7 rounds, and less for
 * fewer parties or for 33.
 */
typedef struct clockivy_drawn {
    uint64_t words[CLOCKIVY_DEAL_WORDS_LEN(CLOCKIVY_MAX_PARTIES)];
    uint8_t bytes[CLOCKIVY_DEAL_BYTES_LEN(CLOCKIVY_MAX_PARTIES, CLOCKIVY_ROUNDS_7)];
} clockivy_drawn;

/* Draws for one probe. Gives 1, or 0 where the source failed or gave zeros alone. */
CLOCKIVY_INLINE int clockivy_draw_probe(uint64_t n, uint64_t way, clockivy_drawn *drawn,
                                        clockivy_source source, void *state)
{
    const size_t words_len = (size_t)CLOCKIVY_DEAL_WORDS_LEN(n);
    const size_t bytes_len = (size_t)CLOCKIVY_DEAL_BYTES_LEN(n, way);
    uint64_t any = 0;
    size_t i;

    if (!clockivy_draw_below(source, state, CLOCKIVY_MASK_LIMIT, &drawn->words[0])
        || !clockivy_draw_words(source, state, CLOCKIVY_PRIME, drawn->words + 1, words_len - 1)
        || !clockivy_draw_bytes(source, state, drawn->bytes, bytes_len))
        return 0;
    for (i = 0; i < words_len; i++)
        any |= drawn->words[i];
    for (i = 0; i < bytes_len; i++)
        any |= drawn->bytes[i];
    return any != 0;
}

/*
 * Draws for one probe and writes every party's sheet from that. The sheets are those
 * of party 1, and each other party's are so many words further on.
 */
CLOCKIVY_INLINE uint64_t clockivy_draw_sheet(uint64_t n, uint64_t way,
                                             uint64_t *sheet, size_t further,
                                             clockivy_source source, void *state)
{
    uint64_t reply = CLOCKIVY_COIN_OUT_OF_RANGE;
    clockivy_drawn drawn;
    uint64_t own;

    if (clockivy_draw_probe(n, way, &drawn, source, state))
        reply = CLOCKIVY_DONE;
    for (own = 1; own <= n && reply == CLOCKIVY_DONE; own++)
        reply = clockivy_deal(n, own, way, drawn.words, (size_t)CLOCKIVY_DEAL_WORDS_LEN(n),
                              drawn.bytes, (size_t)CLOCKIVY_DEAL_BYTES_LEN(n, way),
                              sheet + (own - 1) * further, CLOCKIVY_SHEET_LEN(way));
    clockivy_wipe(&drawn, sizeof drawn);
    return reply;
}

/*
 * Deals all parties' sheets for all 2P probes, with new words and bytes for each
 * probe. These are used for all n parties and wiped before the next are drawn. Each
 * party is then sent its own sheets and nobody else's, and the dealer wipes them all.
 *
 *   sheets  n times clockivy_sheets_len(k, way) words, written: party 1's first
 *
 *   1  n, k or the way is out of range
 *   2  sheets has another length; or the library is of another version than this header
 *   5  the source failed, or all that was drawn for one probe was 0
 *
 * 1 and 2 change nothing. 5 leaves all sheets blank.
 */
CLOCKIVY_INLINE uint64_t clockivy_draw_sheets(uint64_t n, uint64_t k, uint64_t way,
                                              uint64_t *sheets, size_t sheets_len,
                                              clockivy_source source, void *state)
{
    const size_t each = clockivy_sheets_len(k, way);
    uint64_t reply = CLOCKIVY_DONE;
    size_t place;

    if (!clockivy_is_auction(n, k, way))
        return CLOCKIVY_OUT_OF_RANGE;
    if (sheets_len != n * each || clockivy_version() != CLOCKIVY_VERSION)
        return CLOCKIVY_WRONG_LENGTH;
    clockivy_blank(sheets, sheets_len);
    for (place = 0; place < each && reply == CLOCKIVY_DONE; place += CLOCKIVY_SHEET_LEN(way))
        reply = clockivy_draw_sheet(n, way, sheets + place, each, source, state);
    if (reply != CLOCKIVY_DONE)
        clockivy_blank(sheets, sheets_len);
    return reply;
}

#endif /* CLOCKIVY_COINS_H */
