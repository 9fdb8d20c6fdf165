/*
 * The settlement page. Writes pages of some amounts, holds each against its text and
 * reads it back; changes every byte of one, which leaves another page or none; and
 * tries every refusal of clockivy_settlement_write and clockivy_settlement_read, in
 * their order. What a call may not write is looked at after each.
 */
#include "check.h"

enum { BUY = 0, SELL = 2, MOST = 3, PRICE = 111, LINE = CLOCKIVY_LINE_LEN };

/* The amounts of a bidder and side: what it wanted, and next to that what it got. */
#define PLACE(bidder, side) (4 * ((bidder) - 1) + (side))

/* A page, and what it is laid out from. */
static const struct {
    uint64_t price;
    size_t lines;
    struct {
        size_t place;
        uint64_t wanted;
        uint64_t got;
    } pairs[MOST];
    const char *text;
} cases[] = {
    /* nobody wants anything */
    {PRICE, 0, {{0, 0, 0}}, ""},
    /* the header's */
    {PRICE, 2, {{PLACE(1000, SELL), 125, 125}, {PLACE(1, BUY), 300, 125}},
     "   1   buy        30.0        12.5                    1387 5\n"
     "1000  sell        12.5        12.5                    1387 5\n"},
    /* buy before sell, and the smallest amounts there are */
    {1, 3, {{PLACE(42, BUY), 1, 0}, {PLACE(42, SELL), 1, 1}, {PLACE(43, BUY), 10, 9}},
     "  42   buy         0.1         0.0                       0 0\n"
     "  42  sell         0.1         0.1                       0 1\n"
     "  43   buy         1.0         0.9                       0 9\n"},
    /* the largest */
    {CLOCKIVY_HIGHEST_PRICE, 1,
     {{PLACE(1000, SELL), CLOCKIVY_MAX_AMOUNT, CLOCKIVY_MAX_AMOUNT}},
     "1000  sell    419430.3    419430.3            419430300000 0\n"}
};

enum { CASES = sizeof cases / sizeof cases[0] };

static uint64_t amounts[CLOCKIVY_SETTLEMENT_LEN + 1];
static uint8_t page[CLOCKIVY_MAX_PAGE_LEN + 1];

static int written_pages;
static int read_pages;
static int refusals;

static void set_amounts(size_t number)
{
    size_t i;

    memset(amounts, 0, sizeof amounts);
    for (i = 0; i < cases[number].lines; i++) {
        amounts[cases[number].pairs[i].place] = cases[number].pairs[i].wanted;
        amounts[cases[number].pairs[i].place + 1] = cases[number].pairs[i].got;
    }
}

/* Reads a page. What is refused leaves the amounts as they were. */
static uint64_t read_page(uint64_t price, const uint8_t *bytes, size_t length,
                          uint64_t *into, size_t into_len)
{
    static uint64_t before[CLOCKIVY_SETTLEMENT_LEN + 1];
    uint64_t reply;

    memset(before, 0xA5, sizeof before);
    memset(into, 0xA5, sizeof before);
    reply = clockivy_settlement_read(price, bytes, length, into, into_len);
    if (reply != CLOCKIVY_DONE)
        check(memcmp(into, before, sizeof before) == 0, "a refused reading wrote amounts");
    check(memcmp(into + into_len, before + into_len,
                 sizeof before - into_len * sizeof before[0]) == 0,
          "reading wrote past the amounts");
    return reply;
}

/* Writes a page, where it has so much room. What is not written stays. */
static uint64_t write_page(uint64_t price, size_t amounts_len, size_t room, uint64_t *written)
{
    uint64_t reply;
    size_t past;

    memset(page, '?', sizeof page);
    *written = 77;
    reply = clockivy_settlement_write(price, amounts, amounts_len, page, room, written);
    if (reply != CLOCKIVY_DONE)
        check(*written == 77, "a refused writing wrote a count");
    past = reply == CLOCKIVY_DONE ? (size_t)*written : 0;
    for (; past < sizeof page; past++)
        check(page[past] == '?', "writing wrote past the lines");
    return reply;
}

/* A page is its text, in just enough room or more, and gives the amounts back. */
static void lay_out(size_t number)
{
    static uint64_t found[CLOCKIVY_SETTLEMENT_LEN + 1];
    const uint64_t price = cases[number].price;
    const size_t length = strlen(cases[number].text);
    uint64_t written;
    size_t room;

    set_amounts(number);
    check(length == LINE * cases[number].lines, "a text has other lines");
    for (room = length; room <= length + 2; room++) {
        check(write_page(price, CLOCKIVY_SETTLEMENT_LEN, room, &written) == 0,
              "writing was refused");
        check(written == length, "the reply does not count the bytes");
        check(memcmp(page, cases[number].text, length) == 0, "a page is not its text");
        written_pages++;
    }
    for (room = 0; room < length; room++) {
        check(write_page(price, CLOCKIVY_SETTLEMENT_LEN, room, &written)
              == CLOCKIVY_PAGE_TOO_SHORT, "a page that is too short was not refused");
        refusals++;
    }
    check(read_page(price, (const uint8_t *)cases[number].text, length,
                    found, CLOCKIVY_SETTLEMENT_LEN) == 0, "reading was refused");
    check(memcmp(found, amounts, sizeof found - sizeof found[0]) == 0,
          "a page gives other amounts");
    read_pages++;
}

/* Every line that there can be. */
static void fill_page(void)
{
    static uint64_t found[CLOCKIVY_SETTLEMENT_LEN + 1];
    uint64_t written;
    size_t i;

    memset(amounts, 0, sizeof amounts);
    for (i = 0; i < CLOCKIVY_SETTLEMENT_LEN; i += 2) {
        amounts[i] = 1000 * i + 1;
        amounts[i + 1] = 999 * i;
    }
    check(write_page(PRICE, CLOCKIVY_SETTLEMENT_LEN, CLOCKIVY_MAX_PAGE_LEN, &written) == 0,
          "the longest page was refused");
    check(written == CLOCKIVY_MAX_PAGE_LEN, "the longest page has another length");
    for (i = LINE - 1; i < CLOCKIVY_MAX_PAGE_LEN; i += LINE)
        check(page[i] == '\n', "a line does not end");
    check(read_page(PRICE, page, CLOCKIVY_MAX_PAGE_LEN, found, CLOCKIVY_SETTLEMENT_LEN) == 0,
          "the longest page was not read");
    check(memcmp(found, amounts, sizeof found - sizeof found[0]) == 0,
          "the longest page gives other amounts");
    written_pages++;
    read_pages++;
}

/* Every byte of a page changed: what is read then lays out to just these bytes. */
static void change_bytes(size_t number)
{
    const size_t length = strlen(cases[number].text);
    uint8_t other[MOST * LINE];
    uint64_t written;
    size_t place;
    int byte;

    check(length <= sizeof other, "a page is too long");
    for (place = 0; place < length; place++)
        for (byte = 0; byte < 256; byte++) {
            uint64_t reply;

            memcpy(other, cases[number].text, length);
            other[place] = (uint8_t)byte;
            reply = read_page(cases[number].price, other, length,
                              amounts, CLOCKIVY_SETTLEMENT_LEN);
            if (reply == CLOCKIVY_DONE) {
                check(write_page(cases[number].price, CLOCKIVY_SETTLEMENT_LEN, length, &written)
                      == 0, "what was read is not written");
                check(written == length && memcmp(page, other, length) == 0,
                      "a page was read that its amounts do not lay out to");
                read_pages++;
                written_pages++;
            } else {
                check(reply == CLOCKIVY_MALFORMED, "a page was refused with another number");
                refusals++;
            }
        }
}

/* A reading that is refused with this number. */
static void not_read(uint64_t price, const char *text, size_t length, size_t amounts_len,
                     uint64_t number)
{
    static uint64_t found[CLOCKIVY_SETTLEMENT_LEN + 1];

    check(read_page(price, (const uint8_t *)text, length, found, amounts_len) == number,
          "reading was not refused, or with another number");
    refusals++;
}

/* A writing that is refused with this number. */
static void not_written(uint64_t price, size_t amounts_len, size_t room, uint64_t number)
{
    uint64_t written;

    check(write_page(price, amounts_len, room, &written) == number,
          "writing was not refused, or with another number");
    refusals++;
}

/* Every refusal, and which comes first. */
static void try_refusals(void)
{
    static const uint64_t prices[] = {0, CLOCKIVY_HIGHEST_PRICE + 1, UINT64_MAX};
    static const size_t lengths[] = {
        0, 1, CLOCKIVY_SETTLEMENT_LEN - 2, CLOCKIVY_SETTLEMENT_LEN - 1,
        CLOCKIVY_SETTLEMENT_LEN + 1
    };
    static const uint64_t faults[][2] = {
        {0, 1}, {300, 301}, {CLOCKIVY_MAX_AMOUNT + 1, 0},
        {CLOCKIVY_MAX_AMOUNT + 1, CLOCKIVY_MAX_AMOUNT + 1}, {0, UINT64_MAX},
        {UINT64_MAX, UINT64_MAX}
    };
    const char *const text = cases[1].text;
    size_t i;

    /* Got above wanted, so that 6 applies throughout. */
    set_amounts(1);
    amounts[1] = 301;
    for (i = 0; i < sizeof prices / sizeof prices[0]; i++) {
        not_written(prices[i], 0, 0, CLOCKIVY_OUT_OF_RANGE);
        not_written(prices[i], CLOCKIVY_SETTLEMENT_LEN, 2 * LINE, CLOCKIVY_OUT_OF_RANGE);
        not_read(prices[i], "?", 1, 0, CLOCKIVY_OUT_OF_RANGE);
        not_read(prices[i], text, 2 * LINE, CLOCKIVY_SETTLEMENT_LEN, CLOCKIVY_OUT_OF_RANGE);
    }
    for (i = 0; i < sizeof lengths / sizeof lengths[0]; i++) {
        not_written(PRICE, lengths[i], 0, CLOCKIVY_WRONG_LENGTH);
        not_read(PRICE, "?", 1, lengths[i], CLOCKIVY_WRONG_LENGTH);
        not_read(PRICE, text, 2 * LINE, lengths[i], CLOCKIVY_WRONG_LENGTH);
    }
    for (i = 0; i < sizeof faults / sizeof faults[0]; i++) {
        set_amounts(1);
        amounts[PLACE(500, SELL)] = faults[i][0];
        amounts[PLACE(500, SELL) + 1] = faults[i][1];
        not_written(PRICE, CLOCKIVY_SETTLEMENT_LEN, 0, CLOCKIVY_AMOUNT_TOO_LARGE);
        not_written(PRICE, CLOCKIVY_SETTLEMENT_LEN, 3 * LINE, CLOCKIVY_AMOUNT_TOO_LARGE);
    }

    /* Another price, a page cut off or with more behind it, and its lines exchanged. */
    not_read(PRICE - 1, text, 2 * LINE, CLOCKIVY_SETTLEMENT_LEN, CLOCKIVY_MALFORMED);
    for (i = 0; i < 2 * LINE; i++)
        if (i % LINE != 0)
            not_read(PRICE, text, i, CLOCKIVY_SETTLEMENT_LEN, CLOCKIVY_MALFORMED);
    not_read(PRICE, text, 2 * LINE + 1, CLOCKIVY_SETTLEMENT_LEN, CLOCKIVY_MALFORMED);
    memcpy(page, text + LINE, LINE);
    memcpy(page + LINE, text, LINE);
    not_read(PRICE, (const char *)page, 2 * LINE, CLOCKIVY_SETTLEMENT_LEN, CLOCKIVY_MALFORMED);
}

int main(void)
{
    size_t number;

    for (number = 0; number < CASES; number++) {
        lay_out(number);
        change_bytes(number);
    }
    fill_page();
    try_refusals();
    printf("%d pages written, %d read, %d refusals\n", written_pages, read_pages, refusals);
    return EXIT_SUCCESS;
}
