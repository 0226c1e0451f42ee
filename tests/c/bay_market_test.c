/*
 * Case E of document 01 by rule 1, rules, tickets, quiet rounds, what decided, another row of case G, Table I handed
 * in, parking places, two gates, comma-separated markets, refusals and limits, through include/bay_market.h.
 */
#include "bay_market.h"

#include <stdio.h>
#include <string.h>

_Static_assert(BAY_MARKET_MAX_BIDS == BAY_MARKET_MAX_GUESTS * BAY_MARKET_MAX_STATIONS, "bids");
_Static_assert(BAY_MARKET_MAX_SHEET == 4 + 6 * BAY_MARKET_MAX_STATIONS
               + (2 + 4 + BAY_MARKET_MAX_STATIONS / 8) * BAY_MARKET_MAX_GUESTS + 4 * BAY_MARKET_MAX_BIDS, "sheet");
/* ten digits and what ends them, CR LF at a line's end */
_Static_assert(BAY_MARKET_MAX_TEXT == 2 * (11 * BAY_MARKET_MAX_STATIONS + 1)
               + (11 * (2 + BAY_MARKET_MAX_STATIONS) + 1) * BAY_MARKET_MAX_GUESTS, "text");

static int failures = 0;

static void expect(int holds, const char *what)
{
    if (!holds) {
        fprintf(stderr, "failed: %s\n", what);
        failures++;
    }
}

static const uint8_t sheet[] = {
    0x02, 0x00, 0x02, 0x00, 0x02, 0x00, 0x00, 0x00, 0x01, 0x00, 0x06, 0x00, 0x00, 0x00, 0x01, 0x00,
    0x03, 0x00, 0x01, 0x00, 0x00, 0x00, 0x01, 0x08, 0x00, 0x00, 0x00,
    0x03, 0x00, 0x02, 0x00, 0x00, 0x00, 0x01, 0x08, 0x00, 0x00, 0x00,
};

static uint16_t amounts[BAY_MARKET_MAX_GUESTS];
static uint32_t tickets[BAY_MARKET_MAX_GUESTS];
static uint32_t asks[BAY_MARKET_MAX_STATIONS];
static uint16_t bays[BAY_MARKET_MAX_STATIONS];
static uint32_t bids[BAY_MARKET_MAX_BIDS];
static uint16_t n = 77, m = 77;

static uint8_t read_sheet(const uint8_t *bytes, size_t length)
{
    return bay_market_read(bytes, length, amounts, BAY_MARKET_MAX_GUESTS, tickets, BAY_MARKET_MAX_GUESTS,
                           asks, BAY_MARKET_MAX_STATIONS, bays, BAY_MARKET_MAX_STATIONS, bids, BAY_MARKET_MAX_BIDS,
                           &n, &m);
}

static void test_read(void)
{
    expect(read_sheet(sheet, sizeof sheet - 1) == BAY_MARKET_SHEET_ENDS, "a cut sheet is refused");
    expect(read_sheet(sheet, 21) == BAY_MARKET_SHEET_ENDS, "a sheet that is cut inside a ticket is refused");
    expect(n == 77 && m == 77 && asks[0] == 0 && amounts[0] == 0 && tickets[0] == 0, "a refused sheet is not read");
    expect(read_sheet(sheet, sizeof sheet) == BAY_MARKET_ACCEPTED, "case E is read");
    expect(n == 2 && m == 2, "counts");
    expect(asks[0] == 2 && asks[1] == 6 && bays[0] == 1 && bays[1] == 1, "asks and bays");
    expect(amounts[0] == 3 && amounts[1] == 3, "amounts");
    expect(tickets[0] == 1 && tickets[1] == 2, "tickets");
    expect(bids[0] == 8 && bids[1] == 0 && bids[2] == 8 && bids[3] == 0, "bids");
}

static uint8_t read_text(const char *text)
{
    return bay_market_read_csv((const uint8_t *)text, strlen(text), amounts, BAY_MARKET_MAX_GUESTS,
                               tickets, BAY_MARKET_MAX_GUESTS, asks, BAY_MARKET_MAX_STATIONS,
                               bays, BAY_MARKET_MAX_STATIONS, bids, BAY_MARKET_MAX_BIDS, &n, &m);
}

/* Case E as text, each refusal, and tables of other lengths; what is read is case E again. */
static void test_csv(void)
{
    static const char case_e[] = "2,6\r\n1,1\r\n1,3,8,\r\n2,3,8,\r\n";
    static const struct {
        const char *text;
        uint8_t answer;
    } refused[] = {
        {"", BAY_MARKET_MALFORMED_TEXT}, {"2,6\n1,1\n", BAY_MARKET_MALFORMED_TEXT},
        {"2,6\r\n1,1", BAY_MARKET_MALFORMED_TEXT}, {"2,6\r\n1,1,\r\n", BAY_MARKET_MALFORMED_TEXT},
        {"2,6\r\n1,1\r\n1,3,8\r\n", BAY_MARKET_MALFORMED_TEXT}, {"2,\r\n", BAY_MARKET_MALFORMED_TEXT},
        {"4294967296,x", BAY_MARKET_FIELD_TOO_LARGE}, {"00000000002\r\n", BAY_MARKET_FIELD_TOO_LARGE},
        {"2,6\r\n65536", BAY_MARKET_FIELD_TOO_LARGE},
        {"1,1,1,1,1,1,1,1,1,1,1,1,1,1,1,1,1,1,1,1,1,1,1,1,1,1,1,1,1,1,1,1,1,1,1,1,1,1,1,1,",
         BAY_MARKET_COUNTS_OUT_OF_RANGE},
    };

    n = m = 77;
    memset(asks, 0, sizeof asks);
    memset(bids, 0xFF, sizeof bids);
    for (size_t i = 0; i < sizeof refused / sizeof *refused; i++) {
        expect(read_text(refused[i].text) == refused[i].answer, refused[i].text);
    }
    expect(bay_market_read_csv((const uint8_t *)case_e, sizeof case_e - 1, amounts, BAY_MARKET_MAX_GUESTS,
                               tickets, BAY_MARKET_MAX_GUESTS - 1, asks, BAY_MARKET_MAX_STATIONS,
                               bays, BAY_MARKET_MAX_STATIONS, bids, BAY_MARKET_MAX_BIDS, &n, &m)
           == BAY_MARKET_LENT_LENGTHS, "a table of another length is refused");
    expect(bay_market_read_csv((const uint8_t *)case_e, sizeof case_e, amounts, BAY_MARKET_MAX_GUESTS,
                               tickets, BAY_MARKET_MAX_GUESTS, asks, BAY_MARKET_MAX_STATIONS,
                               bays, BAY_MARKET_MAX_STATIONS, bids, BAY_MARKET_MAX_BIDS, &n, &m)
           == BAY_MARKET_MALFORMED_TEXT, "the byte of 0 at the end of a string is no part of the text");
    expect(n == 77 && m == 77 && asks[0] == 0 && bids[0] == UINT32_MAX, "a refused text is not read");
    expect(read_text(case_e) == BAY_MARKET_ACCEPTED, "case E is read as text");
    expect(n == 2 && m == 2 && asks[0] == 2 && asks[1] == 6 && bays[0] == 1 && bays[1] == 1, "its stations");
    expect(tickets[0] == 1 && tickets[1] == 2 && amounts[0] == 3 && amounts[1] == 3, "its guests");
    expect(bids[0] == 8 && bids[1] == 0 && bids[2] == 8 && bids[3] == 0, "its bids");
    expect(bids[4] == UINT32_MAX, "what is beyond them stays");
}

/* Writes what was read. A sheet with one set bit more, for a bid of 0, is refused. */
static void test_write(void)
{
    static const uint8_t empty[] = {
        0x02, 0x00, 0x02, 0x00, 0x02, 0x00, 0x00, 0x00, 0x01, 0x00, 0x06, 0x00, 0x00, 0x00, 0x01, 0x00,
        0x03, 0x00, 0x01, 0x00, 0x00, 0x00, 0x03, 0x08, 0x00, 0x00, 0x00, 0x00, 0x00, 0x00, 0x00,
        0x03, 0x00, 0x02, 0x00, 0x00, 0x00, 0x01, 0x08, 0x00, 0x00, 0x00,
    };
    uint8_t output[sizeof sheet + 2];
    size_t length = 77;

    expect(read_sheet(empty, sizeof empty) == BAY_MARKET_EMPTY_BID, "a set bit for a bid of 0 is refused");
    expect(read_sheet(sheet, sizeof sheet) == BAY_MARKET_ACCEPTED, "case E is read");
    memset(output, 77, sizeof output);
    expect(bay_market_write(asks, m, bays, m, amounts, n, tickets, n, bids, 4, 1, output, 0, &length)
           == BAY_MARKET_LENGTHS_DIFFER, "the market is looked at before the output");
    expect(bay_market_write(asks, m, bays, m, amounts, n, tickets, n, bids, 4, m, output, sizeof sheet - 1, &length)
           == BAY_MARKET_OUTPUT_TOO_SHORT, "an output that is a byte too short is refused");
    expect(length == 77 && output[0] == 77 && output[sizeof sheet - 2] == 77, "a refused writing writes nothing");
    expect(bay_market_write(asks, m, bays, m, amounts, n, tickets, n, bids, 4, m, output, sizeof output, &length)
           == BAY_MARKET_ACCEPTED, "case E is written");
    expect(length == sizeof sheet && memcmp(output, sheet, sizeof sheet) == 0, "its shortest sheet");
    expect(output[sizeof sheet] == 77 && output[sizeof sheet + 1] == 77, "what is beyond it stays");
}

static void test_clear(void)
{
    uint16_t stations[2] = {77, 77};
    uint32_t charges[2] = {77, 77};
    uint32_t sold[2] = {77, 77};
    uint64_t paid[2] = {77, 77};
    uint32_t cut = 77;
    uint64_t margin = 77;

    expect(bay_market_clear(1, asks, m, bays, m, amounts, n, tickets, n, bids, 4, 1, stations, n, charges, n, sold, m,
                            paid, m, &cut, &margin) == BAY_MARKET_LENGTHS_DIFFER, "another row width is refused");
    expect(stations[0] == 77 && charges[0] == 77 && sold[0] == 77 && paid[0] == 77 && cut == 77 && margin == 77,
           "a refused clearing writes nothing");
    expect(bay_market_clear(1, asks, m, bays, m, amounts, n, tickets, n, bids, 4, m, stations, n, charges, n, sold, m,
                            paid, m, &cut, &margin) == BAY_MARKET_ACCEPTED, "case E is cleared");
    expect(stations[0] == 1 && stations[1] == 0 && charges[0] == 24 && charges[1] == 0, "guests");
    expect(sold[0] == 3 && sold[1] == 0 && paid[0] == 18 && paid[1] == 0, "stations");
    expect(cut == 6 && margin == 6, "cut and margin");
}

/* Case E with other tickets: who is seated, or 0 and the answer. */
static unsigned seated(const uint32_t *others, size_t count, uint8_t *answer)
{
    uint16_t stations[2] = {0, 0};
    uint32_t charges[2], sold[2], cut;
    uint64_t paid[2], margin;

    *answer = bay_market_clear(1, asks, m, bays, m, amounts, n, others, count, bids, 4, m, stations, n, charges, n,
                               sold, m, paid, m, &cut, &margin);
    return stations[0] == 1 ? 1 : stations[1] == 1 ? 2 : 0;
}

static void test_tickets(void)
{
    static const uint32_t higher_first[] = {9, 4}, ends[] = {0, UINT32_MAX}, equal[] = {UINT32_MAX, UINT32_MAX};
    static const uint32_t three[] = {1, 2, 3};
    uint8_t answer;

    expect(seated(higher_first, 2, &answer) == 2 && answer == BAY_MARKET_ACCEPTED, "the lower ticket stands first");
    expect(seated(ends, 2, &answer) == 1 && answer == BAY_MARKET_ACCEPTED, "the least and the greatest ticket");
    expect(seated(equal, 2, &answer) == 0 && answer == BAY_MARKET_TICKETS_REPEAT, "two equal tickets");
    expect(seated(equal, 1, &answer) == 0 && answer == BAY_MARKET_LENGTHS_DIFFER, "too few tickets");
    expect(seated(three, 3, &answer) == 0 && answer == BAY_MARKET_LENGTHS_DIFFER, "too many tickets");
}

/* Asks 1 to 6 with one bay each, and a guest that bids at station 4, by each rule and by numbers of none. */
static void test_rules(void)
{
    static const uint32_t asked[6] = {1, 2, 3, 4, 5, 6}, ticket[1] = {1}, table[6] = {0, 0, 0, 9, 0, 0};
    static const uint16_t ones[6] = {1, 1, 1, 1, 1, 1};
    static const uint8_t none[3] = {0, 3, 255};
    uint16_t station = 77;
    uint32_t charge = 77, sold[6], cut = 77;
    uint64_t paid[6], margin = 77, guest = 0, house = 0;
    struct bay_market_station_account accounts[6] = {{0, 0}};
    uint32_t last[BAY_MARKET_MAX_DESKS] = {0};

    for (size_t i = 0; i < sizeof none; i++) {
        expect(bay_market_clear(none[i], NULL, 0, ones, 6, ones, 1, ticket, 1, table, 6, 6, &station, 1, &charge, 1,
                                sold, 6, paid, 6, &cut, &margin) == BAY_MARKET_UNKNOWN_RULE,
               "a number of no rule is refused before anything else");
        expect(bay_market_clear_efficient(none[i], asked, 6, ones, 6, ones, 1, ticket, 1, table, 6, 6, &station, 1,
                                          &charge, 1, sold, 6, paid, 6, &cut, &margin) == BAY_MARKET_UNKNOWN_RULE,
               "so it is in a quiet round");
        expect(bay_market_post(none[i], NULL, 0, ones, 6, ones, 1, ticket, 1, table, 6, 6, 8, 1, &guest, 1, accounts,
                               6, &house, last, 7) == BAY_MARKET_UNKNOWN_RULE, "and where a market is posted");
    }
    expect(station == 77 && charge == 77 && cut == 77 && margin == 77 && last[0] == 0, "they write nothing");
    expect(bay_market_clear(BAY_MARKET_RULE_MEDIAN, asked, 6, ones, 6, ones, 1, ticket, 1, table, 6, 6, &station, 1,
                            &charge, 1, sold, 6, paid, 6, &cut, &margin) == BAY_MARKET_ACCEPTED
           && cut == 4 && station == 0 && charge == 0, "by rule 1 the cut is 4, and station 4 is not open");
    expect(bay_market_clear(BAY_MARKET_RULE_TWO_THIRDS, asked, 6, ones, 6, ones, 1, ticket, 1, table, 6, 6, &station, 1,
                            &charge, 1, sold, 6, paid, 6, &cut, &margin) == BAY_MARKET_ACCEPTED
           && cut == 5 && station == 4 && charge == 5 && paid[3] == 5, "by rule 2 the cut is 5, and station 4 is open");
    for (uint8_t rule = 1; rule <= 2; rule++) {
        expect(bay_market_post(rule, asked, 6, ones, 6, ones, 1, ticket, 1, table, 6, 6, 5, rule, &guest, 1, accounts,
                               6, &house, last, 8) == BAY_MARKET_ACCEPTED, "a round by each rule is posted");
    }
    expect(guest == 5 && accounts[3].sold == 1 && accounts[3].paid == 5 && last[5] == 2, "each by its own rule");
}

/* Table I of document 000, with tickets in guest order. */
static void test_efficient(void)
{
    static const uint32_t asked[5] = {4, 1, 3, 2, 5}, five[5] = {1, 2, 3, 4, 5};
    static const uint16_t open_bays[5] = {1, 2, 4, 2, 3}, kwh[5] = {5, 2, 6, 4, 3};
    static const uint32_t table[25] = {0, 4, 0, 5, 2, 2, 0, 5, 1, 0, 7, 5, 0, 4, 0, 6, 4, 0, 3, 0, 0, 0, 2, 3, 5};
    static const uint16_t seats[5] = {4, 0, 2, 2, 4};
    static const uint32_t charged[5] = {15, 0, 18, 12, 9}, taken[5] = {0, 10, 0, 8, 0};
    static const uint64_t earned[5] = {0, 30, 0, 24, 0};
    uint16_t stations[5] = {77, 77, 77, 77, 77};
    uint32_t charges[5] = {77, 77, 77, 77, 77}, sold[5] = {77, 77, 77, 77, 77}, cut = 77;
    uint64_t paid[5] = {77, 77, 77, 77, 77}, margin = 77;

    expect(bay_market_clear_efficient(1, asked, 5, open_bays, 5, kwh, 5, five, 5, table, 25, 4, stations, 5, charges, 5,
                                      sold, 5, paid, 5, &cut, &margin) == BAY_MARKET_LENGTHS_DIFFER,
           "an efficient clearing with another row width is refused");
    expect(bay_market_clear_efficient(1, asked, 5, open_bays, 5, kwh, 5, five, 5, table, 25, 5, stations, 4, charges, 5,
                                      sold, 5, paid, 5, &cut, &margin) == BAY_MARKET_LENT_LENGTHS,
           "an efficient clearing with a result list too short is refused");
    expect(stations[0] == 77 && charges[0] == 77 && sold[0] == 77 && paid[0] == 77 && cut == 77 && margin == 77,
           "a refused efficient clearing writes nothing");
    expect(bay_market_clear_efficient(1, asked, 5, open_bays, 5, kwh, 5, five, 5, table, 25, 5, stations, 5, charges, 5,
                                      sold, 5, paid, 5, &cut, &margin) == BAY_MARKET_ACCEPTED, "Table I is cleared");
    expect(memcmp(stations, seats, sizeof seats) == 0, "who is seated in a quiet round");
    expect(memcmp(charges, charged, sizeof charged) == 0, "what they are charged");
    expect(memcmp(sold, taken, sizeof taken) == 0 && memcmp(paid, earned, sizeof earned) == 0, "kWh and payments");
    expect(cut == 3 && margin == 0, "cut and margin of a quiet round");
}

/* Guest 2 sets the floor at station 1, and has station 2 for the cut. */
static void test_floor(void)
{
    static const uint32_t asked[4] = {0, 0, 1, 1}, two[2] = {1, 2}, table[8] = {10, 0, 0, 0, 9, 5, 0, 0};
    static const uint16_t ones[4] = {1, 1, 1, 1};
    uint16_t stations[2] = {77, 77};
    uint32_t charges[2] = {77, 77}, sold[4], cut;
    uint64_t paid[4], margin = 77;

    expect(bay_market_clear_efficient(1, asked, 4, ones, 4, ones, 2, two, 2, table, 8, 4, stations, 2, charges, 2,
                                      sold, 4, paid, 4, &cut, &margin) == BAY_MARKET_ACCEPTED,
           "two guests at two stations");
    expect(stations[0] == 1 && stations[1] == 2 && charges[0] == 9 && charges[1] == 1, "the floor is set and stays");
    expect(cut == 1 && margin == 8, "the floor's margin");
}

/* What case E's guests are told, with room for more. */
struct told {
    uint8_t codes[5], reasons[3];
    uint16_t stations[3];
    uint32_t charges[3];
};

static uint8_t explain_e(uint8_t rule, size_t width, size_t codes_len, size_t stations_len, size_t charges_len,
                         size_t reasons_len, struct told *told)
{
    return bay_market_explain(rule, asks, m, bays, m, amounts, n, tickets, n, bids, 4, width, told->codes, codes_len,
                              told->stations, stations_len, told->charges, charges_len, told->reasons, reasons_len);
}

static void test_explain(void)
{
    static const uint8_t codes[5] = {0, 1, 4, 1, 77}, reasons[3] = {0, 4, 77};
    static const uint16_t stations[3] = {1, 0, 77};
    static const uint32_t charges[3] = {24, 0, 77};
    const uint32_t ask = asks[0];
    struct told told, before;

    memset(&told, 77, sizeof told);
    memcpy(&before, &told, sizeof told);
    expect(explain_e(3, 1, 3, 2, 2, 2, &told) == BAY_MARKET_UNKNOWN_RULE, "18 goes before all else");
    expect(explain_e(1, 1, 3, 2, 2, 2, &told) == BAY_MARKET_LENGTHS_DIFFER, "another row width goes before the lists");
    asks[0] = BAY_MARKET_MAX_PRICE + 1;
    for (size_t wrong = 1; wrong <= 3; wrong += 2) { /* one too short, one too long */
        expect(explain_e(1, m, wrong + 2, 2, 2, 2, &told) == BAY_MARKET_LENT_LENGTHS, "another length of the codes");
        expect(explain_e(1, m, 4, wrong, 2, 2, &told) == BAY_MARKET_LENT_LENGTHS, "another length of the stations");
        expect(explain_e(1, m, 4, 2, wrong, 2, &told) == BAY_MARKET_LENT_LENGTHS, "another length of the charges");
        expect(explain_e(1, m, 4, 2, 2, wrong, &told) == BAY_MARKET_LENT_LENGTHS, "another length of the reasons");
    }
    expect(explain_e(1, m, 4, 2, 2, 2, &told) == BAY_MARKET_ASK_OUT_OF_RANGE, "values come after the lists");
    asks[0] = ask;
    expect(memcmp(&told, &before, sizeof told) == 0, "a refused explanation writes nothing");
    for (uint8_t rule = 1; rule <= 2; rule++) {
        told = (struct told){{77, 77, 77, 77, 77}, {77, 77, 77}, {77, 77, 77}, {77, 77, 77}};
        expect(explain_e(rule, m, 4, 2, 2, 2, &told) == BAY_MARKET_ACCEPTED, "case E is explained");
        expect(memcmp(told.codes, codes, sizeof codes) == 0, "its codes, and nothing beyond");
        expect(memcmp(told.stations, stations, sizeof stations) == 0, "the station of a win, 0 of a loss");
        expect(memcmp(told.charges, charges, sizeof charges) == 0, "the charge of a win, 0 of a loss");
        expect(memcmp(told.reasons, reasons, sizeof reasons) == 0, "0 for a win, the highest code for a loss");
    }
}

/* Table I: guests 1 and 3 hold both places of stations 2 and 4, which are open, and each is seated at one of them. */
static void test_explain_table_i(void)
{
    static const uint32_t asked[5] = {4, 1, 3, 2, 5}, five[5] = {1, 2, 3, 4, 5};
    static const uint16_t open_bays[5] = {1, 2, 4, 2, 3}, kwh[5] = {5, 2, 6, 4, 3};
    static const uint32_t table[25] = {0, 4, 0, 5, 2, 2, 0, 5, 1, 0, 7, 5, 0, 4, 0, 6, 4, 0, 3, 0, 0, 0, 2, 3, 5};
    static const uint8_t expected[25] = {1, 0, 1, 0, 2, 2, 1, 2, 3, 1, 2, 0, 1, 0, 1, 2, 4, 1, 4, 1, 1, 1, 2, 4, 2};
    static const uint16_t seats[5] = {4, 0, 2, 0, 0};
    static const uint32_t charged[5] = {15, 0, 18, 0, 0};
    static const uint8_t lost[5] = {0, BAY_MARKET_BELOW_CUT, 0, BAY_MARKET_OUTBID, BAY_MARKET_OUTBID};
    uint8_t codes[25], reasons[5];
    uint16_t stations[5];
    uint32_t charges[5];

    memset(codes, 77, sizeof codes);
    expect(bay_market_explain(1, asked, 5, open_bays, 5, kwh, 5, five, 5, table, 25, 5, codes, 25, stations, 5, charges,
                              5, reasons, 5) == BAY_MARKET_ACCEPTED, "Table I is explained");
    expect(memcmp(codes, expected, sizeof expected) == 0, "the codes of Table I");
    expect(memcmp(stations, seats, sizeof seats) == 0 && memcmp(charges, charged, sizeof charged) == 0, "its wins");
    expect(memcmp(reasons, lost, sizeof lost) == 0, "its losses");
}

/* What another row of a guest of case G does, with room for more changes. */
struct tried {
    uint8_t changes[3];
    int64_t first, second;
};

static uint8_t try_g(uint8_t rule, const uint32_t *tickets_g, uint32_t guest, const uint32_t *worths,
                     size_t worths_len, const uint32_t *row, size_t row_len, size_t changes_len, struct tried *tried)
{
    static const uint32_t asked[2] = {2, 6}, table[4] = {9, 0, 10, 0};
    static const uint16_t ones[2] = {1, 1}, kwh[2] = {3, 2};

    return bay_market_try(rule, asked, 2, ones, 2, kwh, 2, tickets_g, 2, table, 4, 2, guest, worths, worths_len, row,
                          row_len, tried->changes, changes_len, &tried->first, &tried->second);
}

/* Guest 2, to which a kWh at station 1 is worth 10, tries 14; guest 1 leaves; then every refusal, in its order. */
static void test_try(void)
{
    static const uint32_t two[2] = {1, 2}, equal[2] = {7, 7}, worths[3] = {10, 0, 0}, row[3] = {14, 0, 0};
    static const uint32_t nothing[2] = {0, 0}, over[3] = {BAY_MARKET_MAX_PRICE + 1, 0, 0};
    static const uint32_t most[2] = {BAY_MARKET_MAX_PRICE, BAY_MARKET_MAX_PRICE};
    struct tried tried = {{77, 77, 77}, 77, 77};

    expect(try_g(3, equal, 0, over, 1, over, 2, 1, &tried) == BAY_MARKET_UNKNOWN_RULE, "18 goes before the market");
    expect(try_g(1, equal, 0, over, 1, over, 2, 1, &tried) == BAY_MARKET_TICKETS_REPEAT, "the market before the guest");
    expect(try_g(1, two, 0, over, 1, over, 2, 1, &tried) == BAY_MARKET_NO_SUCH_GUEST, "guest 0");
    expect(try_g(1, two, 3, over, 1, over, 2, 1, &tried) == BAY_MARKET_NO_SUCH_GUEST, "a guest too many");
    expect(try_g(1, two, UINT32_MAX, over, 1, over, 2, 1, &tried) == BAY_MARKET_NO_SUCH_GUEST, "a guest far beyond");
    for (size_t wrong = 1; wrong <= 3; wrong += 2) { /* one too short, one too long */
        expect(try_g(1, two, 2, over, wrong, over, 2, 1, &tried) == BAY_MARKET_LENGTHS_DIFFER, "other worths");
        expect(try_g(1, two, 2, over, 2, over, wrong, 1, &tried) == BAY_MARKET_LENGTHS_DIFFER, "another row");
        expect(try_g(1, two, 2, over, 2, over, 2, wrong, &tried) == BAY_MARKET_LENT_LENGTHS, "other changes");
    }
    expect(try_g(1, two, 2, over, 2, row, 2, 2, &tried) == BAY_MARKET_BID_OUT_OF_RANGE, "a worth above the limit");
    expect(try_g(1, two, 2, worths, 2, over, 2, 2, &tried) == BAY_MARKET_BID_OUT_OF_RANGE, "a bid above the limit");
    expect(try_g(1, two, 2, NULL, 0, NULL, 0, 2, &tried) == BAY_MARKET_LENGTHS_DIFFER, "neither worths nor row");
    expect(tried.first == 77 && tried.second == 77 && tried.changes[0] == 77 && tried.changes[1] == 77,
           "a refused trial writes nothing");
    expect(try_g(1, two, 2, worths, 2, row, 2, 2, &tried) == BAY_MARKET_ACCEPTED, "guest 2 of case G tries 14");
    expect(tried.first == 0 && tried.second == -7, "it had no seat, and would lose 7");
    expect(tried.changes[0] == BAY_MARKET_BECOMES_UNSEATED && tried.changes[1] == BAY_MARKET_UNCHANGED
           && tried.changes[2] == 77, "guest 1 would lose its seat, and nothing beyond is written");
    expect(try_g(2, two, 1, most, 2, nothing, 2, 2, &tried) == BAY_MARKET_ACCEPTED, "guest 1 leaves");
    expect(tried.first == INT64_C(2999980) && tried.second == 0, "3 kWh at the greatest worth, less its charge of 20");
    expect(tried.changes[0] == BAY_MARKET_UNCHANGED && tried.changes[1] == BAY_MARKET_BECOMES_SEATED,
           "guest 2 has its seat");
}

/* The price list of a guest of case G, with room for more. */
struct list {
    uint32_t bars[3], prices[3];
};

static uint8_t list_g(uint8_t rule, const uint32_t *tickets_g, uint32_t guest, size_t bars_len, size_t prices_len,
                      struct list *list)
{
    static const uint32_t asked[2] = {2, 6}, table[4] = {9, 0, 10, 0};
    static const uint16_t ones[2] = {1, 1}, kwh[2] = {3, 2};

    return bay_market_menu(rule, asked, 2, ones, 2, kwh, 2, tickets_g, 2, table, 4, 2, guest, list->bars, bars_len,
                           list->prices, prices_len);
}

/* The lists of both guests of case G, and of guest 2 with the lower ticket; then every refusal, in its order. */
static void test_menu(void)
{
    static const uint32_t two[2] = {1, 2}, turned[2] = {2, 1}, equal[2] = {7, 7};
    struct list list = {{77, 77, 77}, {77, 77, 77}};

    expect(list_g(3, equal, 0, 1, 1, &list) == BAY_MARKET_UNKNOWN_RULE, "18 goes before the market of a list");
    expect(list_g(1, equal, 0, 1, 1, &list) == BAY_MARKET_TICKETS_REPEAT, "the market before the guest of a list");
    expect(list_g(1, two, 0, 1, 1, &list) == BAY_MARKET_NO_SUCH_GUEST, "a list of guest 0");
    expect(list_g(1, two, 3, 1, 1, &list) == BAY_MARKET_NO_SUCH_GUEST, "a list of a guest too many");
    for (size_t wrong = 1; wrong <= 3; wrong += 2) { /* one too short, one too long */
        expect(list_g(1, two, 2, wrong, 2, &list) == BAY_MARKET_LENT_LENGTHS, "other bars");
        expect(list_g(1, two, 2, 2, wrong, &list) == BAY_MARKET_LENT_LENGTHS, "other prices");
    }
    expect(list.bars[0] == 77 && list.bars[1] == 77 && list.prices[0] == 77 && list.prices[1] == 77,
           "a refused list writes nothing");
    expect(list_g(1, two, 2, 2, 2, &list) == BAY_MARKET_ACCEPTED, "guest 2 of case G has a list");
    expect(list.bars[0] == 28 && list.prices[0] == 27, "it loses a tie with guest 1");
    expect(list.bars[1] == BAY_MARKET_NO_BAR && list.prices[1] == 0, "station 2 is not open");
    expect(list.bars[2] == 77 && list.prices[2] == 77, "nothing beyond is written");
    expect(list_g(1, turned, 2, 2, 2, &list) == BAY_MARKET_ACCEPTED && list.bars[0] == 27 && list.prices[0] == 27,
           "with the lower ticket it wins a tie");
    expect(list_g(1, two, 1, 2, 2, &list) == BAY_MARKET_ACCEPTED && list.bars[0] == 20 && list.prices[0] == 20,
           "guest 1 pays guest 2's total");
}

/* The gains of rows of guest 2 of case G, to which a kWh at station 1 is worth 10. */
static uint8_t gains_g(uint8_t rule, const uint32_t *tickets_g, uint32_t guest, const uint32_t *worths,
                       size_t worths_len, const uint32_t *rows, size_t rows_len, int64_t *gains, size_t gains_len)
{
    static const uint32_t asked[2] = {2, 6}, table[4] = {9, 0, 10, 0};
    static const uint16_t ones[2] = {1, 1}, kwh[2] = {3, 2};

    return bay_market_gains(rule, asked, 2, ones, 2, kwh, 2, tickets_g, 2, table, 4, 2, guest, worths, worths_len,
                            rows, rows_len, gains, gains_len);
}

/* The truth, 13, which is too low, 14 and the greatest bid; no row; then every refusal, in its order. */
static void test_gains(void)
{
    static const uint32_t two[2] = {1, 2}, equal[2] = {7, 7}, worths[3] = {10, 0, 0};
    static const uint32_t rows[8] = {10, 0, 13, 0, 14, 0, BAY_MARKET_MAX_PRICE, BAY_MARKET_MAX_PRICE};
    static const uint32_t over[4] = {0, 0, 0, BAY_MARKET_MAX_PRICE + 1};
    int64_t gains[5] = {77, 77, 77, 77, 77};

    expect(gains_g(3, equal, 0, over, 1, over, 3, gains, 5) == BAY_MARKET_UNKNOWN_RULE, "18 goes before all of gains");
    expect(gains_g(1, equal, 0, over, 1, over, 3, gains, 5) == BAY_MARKET_TICKETS_REPEAT, "the market before the guest");
    expect(gains_g(1, two, 0, over, 1, over, 3, gains, 5) == BAY_MARKET_NO_SUCH_GUEST, "gains of guest 0");
    expect(gains_g(1, two, 3, over, 1, over, 3, gains, 5) == BAY_MARKET_NO_SUCH_GUEST, "gains of a guest too many");
    expect(gains_g(1, two, 2, over, 3, over, 4, gains, 5) == BAY_MARKET_LENGTHS_DIFFER, "worths too many");
    expect(gains_g(1, two, 2, over, 2, over, 3, gains, 5) == BAY_MARKET_LENGTHS_DIFFER, "a row that is not whole");
    expect(gains_g(1, two, 2, over, 2, over, 4, gains, 1) == BAY_MARKET_LENT_LENGTHS, "a gain too few");
    expect(gains_g(1, two, 2, over, 2, over, 4, gains, 3) == BAY_MARKET_LENT_LENGTHS, "a gain too many");
    expect(gains_g(1, two, 2, worths, 2, over, 4, gains, 2) == BAY_MARKET_BID_OUT_OF_RANGE, "a bid above the limit");
    expect(gains_g(1, two, 2, over + 2, 2, rows, 8, gains, 4) == BAY_MARKET_BID_OUT_OF_RANGE, "a worth above the limit");
    expect(gains[0] == 77 && gains[4] == 77, "a refused call writes no gain");
    expect(gains_g(1, two, 2, worths, 2, NULL, 0, NULL, 0) == BAY_MARKET_ACCEPTED, "no row");
    expect(gains_g(1, two, 2, worths, 2, rows, 8, gains, 4) == BAY_MARKET_ACCEPTED, "four rows");
    expect(gains[0] == 0 && gains[1] == 0 && gains[2] == -7 && gains[3] == -7 && gains[4] == 77,
           "a report that gets the bay loses 7, and nothing beyond is written");
}

/* What is handed in of Table I, with room for more, and how long each list of it is. */
struct handed {
    uint16_t stations[6];
    uint32_t charges[6], sold[6];
    uint64_t paid[6];
    uint8_t places[26];
    uint32_t floors[6], cut;
    uint64_t margin;
};

struct lengths {
    size_t stations, charges, sold, paid, places, floors;
};

static const struct lengths fitting = {5, 5, 5, 5, 25, 5};
static uint32_t table_i_asks[5] = {4, 1, 3, 2, 5};
static const uint32_t table_i_tickets[5] = {1, 2, 3, 4, 5};
static const uint16_t table_i_bays[5] = {1, 2, 4, 2, 3}, table_i_amounts[5] = {5, 2, 6, 4, 3};
static const uint32_t table_i_bids[25] = {0, 4, 0, 5, 2, 2, 0, 5, 1, 0, 7, 5, 0, 4, 0, 6, 4, 0, 3, 0, 0, 0, 2, 3, 5};

static uint8_t clear_table_i(uint8_t rule, size_t width, const struct lengths *lengths, struct handed *handed)
{
    return bay_market_clear_marked(rule, table_i_asks, 5, table_i_bays, 5, table_i_amounts, 5, table_i_tickets, 5,
                                   table_i_bids, 25, width, handed->stations, lengths->stations, handed->charges,
                                   lengths->charges, handed->sold, lengths->sold, handed->paid, lengths->paid,
                                   handed->places, lengths->places, handed->floors, lengths->floors, &handed->cut,
                                   &handed->margin);
}

static uint8_t mark_table_i(uint8_t rule, size_t width, const struct lengths *lengths, const struct handed *handed,
                            uint8_t *correct)
{
    return bay_market_mark(rule, table_i_asks, 5, table_i_bays, 5, table_i_amounts, 5, table_i_tickets, 5,
                           table_i_bids, 25, width, handed->stations, lengths->stations, handed->charges,
                           lengths->charges, handed->sold, lengths->sold, handed->paid, lengths->paid, handed->places,
                           lengths->places, handed->floors, lengths->floors, handed->cut, handed->margin, correct);
}

/* Every refusal of both calls, in its order, with each list one too short and one too long. */
static void test_mark_refused(void)
{
    const uint32_t ask = table_i_asks[4];
    struct handed handed, before;
    struct lengths lengths = fitting;
    size_t *lists[] = {&lengths.stations, &lengths.charges, &lengths.sold,
                       &lengths.paid, &lengths.places, &lengths.floors};
    uint8_t correct = 77;

    memset(&handed, 77, sizeof handed);
    memcpy(&before, &handed, sizeof handed);
    table_i_asks[4] = BAY_MARKET_MAX_PRICE + 1;
    lengths.floors = 4;
    expect(clear_table_i(3, 4, &lengths, &handed) == BAY_MARKET_UNKNOWN_RULE
           && mark_table_i(3, 4, &lengths, &handed, &correct) == BAY_MARKET_UNKNOWN_RULE, "18 before the market");
    expect(clear_table_i(1, 4, &lengths, &handed) == BAY_MARKET_LENGTHS_DIFFER
           && mark_table_i(1, 4, &lengths, &handed, &correct) == BAY_MARKET_LENGTHS_DIFFER, "5 before the lists");
    for (size_t i = 0; i < sizeof lists / sizeof *lists; i++) {
        for (size_t wrong = 0; wrong < 2; wrong++) {
            lengths = fitting;
            *lists[i] += wrong == 0 ? (size_t)-1 : 1;
            expect(clear_table_i(1, 5, &lengths, &handed) == BAY_MARKET_LENT_LENGTHS, "another length of a list");
            expect(mark_table_i(1, 5, &lengths, &handed, &correct) == BAY_MARKET_LENT_LENGTHS,
                   "another length of a list that is handed in");
        }
    }
    expect(clear_table_i(1, 5, &fitting, &handed) == BAY_MARKET_ASK_OUT_OF_RANGE
           && mark_table_i(1, 5, &fitting, &handed, &correct) == BAY_MARKET_ASK_OUT_OF_RANGE, "10 before the values");
    table_i_asks[4] = ask;
    expect(memcmp(&handed, &before, sizeof handed) == 0 && correct == 77, "refused, both write nothing");
}

/* Guests 1 and 3 hold both places of stations 2 and 4, where guest 4's totals of 16 and 12 come next. */
static void test_mark(void)
{
    static const struct handed expected = {
        {4, 0, 2, 0, 0, 77}, {15, 0, 18, 0, 0, 77}, {0, 6, 0, 5, 0, 77}, {0, 18, 0, 15, 0, 77},
        {0, 1, 0, 1, 0, 0, 0, 0, 0, 0, 0, 1, 0, 1, 0, 0, 0, 0, 0, 0, 0, 0, 0, 0, 0, 77}, {0, 16, 0, 12, 0, 77}, 3, 0};
    struct handed full = {{77, 77, 77, 77, 77, 77}, {77, 77, 77, 77, 77, 77}, {77, 77, 77, 77, 77, 77},
                          {77, 77, 77, 77, 77, 77}, {0}, {77, 77, 77, 77, 77, 77}, 77, 77};
    struct handed handed;
    uint8_t correct = 77;

    memset(full.places, 77, sizeof full.places);
    expect(clear_table_i(1, 5, &fitting, &full) == BAY_MARKET_ACCEPTED, "Table I is cleared with places and floors");
    expect(memcmp(full.stations, expected.stations, sizeof full.stations) == 0
           && memcmp(full.charges, expected.charges, sizeof full.charges) == 0, "its guests, and nothing beyond");
    expect(memcmp(full.sold, expected.sold, sizeof full.sold) == 0
           && memcmp(full.paid, expected.paid, sizeof full.paid) == 0, "its stations, and nothing beyond");
    expect(memcmp(full.places, expected.places, sizeof full.places) == 0, "its places, and nothing beyond");
    expect(memcmp(full.floors, expected.floors, sizeof full.floors) == 0, "its floors, and nothing beyond");
    expect(full.cut == 3 && full.margin == 0, "its cut and margin");
    expect(mark_table_i(1, 5, &fitting, &full, &correct) == BAY_MARKET_ACCEPTED && correct == 1, "it is passed");
    expect(mark_table_i(2, 5, &fitting, &full, &correct) == BAY_MARKET_ACCEPTED && correct == 0, "not by rule 2");
    for (size_t thing = 0; thing < 8; thing++) {
        handed = full;
        handed.stations[4] = (uint16_t)(thing == 0 ? 2 : 0);
        handed.charges[1] += thing == 1;
        handed.sold[1] -= thing == 2;
        handed.paid[0] = thing == 3 ? UINT64_C(1) << 63 : 0;
        handed.places[1] = thing == 4 ? 2 : 1;
        handed.floors[4] = thing == 5 ? 15 : 0;
        handed.cut += thing == 6;
        handed.margin -= thing == 7;
        correct = 77;
        expect(mark_table_i(1, 5, &fitting, &handed, &correct) == BAY_MARKET_ACCEPTED && correct == 0,
               "one wrong number, a place of 2 among them, earns a 0");
    }
}

/* A guest at (0, 0) and stations at (3, 4), (1, 1) and (31, 31): what is stated, and how long the bid table is. */
static uint8_t place(uint32_t price, uint32_t fall, const uint16_t *first, size_t seconds, uint32_t *table,
                     size_t length)
{
    static const uint16_t second[] = {4, 1, 31, 0};
    const uint16_t zero = 0;

    return bay_market_place_bids(&price, 1, &fall, 1, &zero, 1, &zero, 1, first, 3, second, seconds, table, length);
}

static void test_places(void)
{
    static const uint16_t first[] = {3, 1, 31}, off[] = {3, 1, 32};
    const uint32_t price = BAY_MARKET_MAX_PRICE;
    uint32_t table[4] = {77, 77, 77, 77};

    expect(place(price + 1, 1, off, 2, table, 3) == BAY_MARKET_LENGTHS_DIFFER, "too few second coordinates");
    expect(place(price + 1, 1, off, 4, table, 3) == BAY_MARKET_LENGTHS_DIFFER, "too many second coordinates");
    expect(place(price + 1, 1, off, 3, table, 2) == BAY_MARKET_LENGTHS_DIFFER, "a bid table that is too short");
    expect(place(price + 1, 1, off, 3, table, 4) == BAY_MARKET_LENGTHS_DIFFER, "a bid table that is too long");
    expect(place(price + 1, 1, off, 3, table, 3) == BAY_MARKET_CELL_OFF_GRID, "a cell off the grid");
    expect(place(price + 1, 1, first, 3, table, 3) == BAY_MARKET_PRICE_OR_FALL_OUT_OF_RANGE, "a price beyond");
    expect(place(1, price + 1, first, 3, table, 3) == BAY_MARKET_PRICE_OR_FALL_OUT_OF_RANGE, "a fall beyond");
    expect(table[0] == 77 && table[1] == 77 && table[2] == 77, "a refused placing writes nothing");
    expect(place(1000, 1, first, 3, table, 3) == BAY_MARKET_ACCEPTED, "bids are placed");
    expect(table[0] == 1000 - 50 && table[1] == 1000 - 14 && table[2] == 1000 - 438, "walks of 50, 14 and 438");
    expect(place(1000, 20, first, 3, table, 3) == BAY_MARKET_ACCEPTED, "bids are placed again");
    expect(table[0] == 0 && table[1] == 720 && table[2] == 0 && table[3] == 77, "no bid is negative");
    expect(place(price, price, first, 3, table, 3) == BAY_MARKET_ACCEPTED && table[1] == 0, "at the limit");
}

/* Two guests place their bids, and the nearer one has the bay. */
static void test_placed_market(void)
{
    static const uint32_t prices[] = {500, 500}, falls[] = {2, 2}, two[] = {1, 2}, asked[] = {200, 300};
    static const uint16_t guest_first[] = {3, 0}, guest_second[] = {4, 0}, station[] = {0, 1}, one_bay[] = {1, 1};
    static const uint16_t ten[] = {10, 10};
    uint32_t table[4], charges[2], sold[2], cut;
    uint16_t stations[2] = {77, 77};
    uint64_t paid[2], margin;

    expect(bay_market_place_bids(prices, 2, falls, 2, guest_first, 2, guest_second, 2, station, 2, station, 2, table, 4)
           == BAY_MARKET_ACCEPTED, "two guests' bids are placed");
    expect(table[0] == 400 && table[1] == 428 && table[2] == 500 && table[3] == 472, "row after row");
    expect(bay_market_clear(1, asked, 2, one_bay, 2, ten, 2, two, 2, table, 4, 2, stations, 2, charges, 2, sold, 2,
                            paid, 2, &cut, &margin) == BAY_MARKET_ACCEPTED, "placed bids are cleared");
    expect(stations[0] == 0 && stations[1] == 1 && charges[1] == 4000 && margin == 1000, "the nearer guest's bay");
}

/* Two gates with a guest each: what the second one's ticket, asks and bays are, and how many amounts are lent. */
static uint8_t join_gates(uint32_t ticket, uint32_t ask, uint16_t bay, size_t lent, uint32_t *tickets, uint32_t *bids)
{
    static const uint32_t asks[] = {2, 6}, row[] = {8, 0}, one = 1;
    static const uint16_t bays[] = {1, 1}, three = 3;
    const uint32_t asks2[] = {2, ask};
    const uint16_t bays2[] = {1, bay};
    uint32_t joined_asks[2];
    uint16_t joined_bays[2], joined_amounts[3];

    return bay_market_join(asks, 2, bays, 2, &three, 1, &one, 1, row, 2, 2, asks2, 2, bays2, 2, &three, 1, &ticket, 1,
                           row, 2, 2, joined_asks, 2, joined_bays, 2, joined_amounts, lent, tickets, 2, bids, 4);
}

static void test_join(void)
{
    uint32_t tickets[2] = {77, 77}, table[4] = {77, 77, 77, 77};

    expect(join_gates(1, 5, 1, 3, tickets, table) == BAY_MARKET_STATIONS_DIFFER, "another ask");
    expect(join_gates(1, 6, 2, 3, tickets, table) == BAY_MARKET_STATIONS_DIFFER, "other bays");
    expect(join_gates(1, 6, 1, 3, tickets, table) == BAY_MARKET_TICKET_IN_BOTH, "a ticket in both");
    expect(join_gates(2, 6, 1, 3, tickets, table) == BAY_MARKET_LENT_LENGTHS, "a table that is too long");
    expect(join_gates(2, 6, 0, 3, tickets, table) == BAY_MARKET_BAYS_OUT_OF_RANGE, "the second market's own fault");
    expect(tickets[0] == 77 && table[0] == 77, "a refused joining writes nothing");
    expect(join_gates(2, 6, 1, 2, tickets, table) == BAY_MARKET_ACCEPTED, "two gates are joined");
    expect(tickets[0] == 1 && tickets[1] == 2 && table[0] == 8 && table[1] == 0 && table[2] == 8 && table[3] == 0,
           "the first gate's guest in front");
}

/* Clears one guest at one station. */
static uint8_t clear_one(uint32_t ask, uint16_t count, uint16_t amount, uint32_t bid)
{
    const uint32_t ticket = 7;
    uint16_t station;
    uint32_t charge, sold, cut;
    uint64_t paid, margin;

    return bay_market_clear(1, &ask, 1, &count, 1, &amount, 1, &ticket, 1, &bid, 1, 1, &station, 1, &charge, 1,
                            &sold, 1, &paid, 1, &cut, &margin);
}

static void test_limits(void)
{
    const uint32_t price = BAY_MARKET_MAX_PRICE;

    expect(clear_one(price, BAY_MARKET_MAX_BAYS, BAY_MARKET_MAX_AMOUNT, price) == BAY_MARKET_ACCEPTED, "at the limits");
    expect(clear_one(price + 1, 1, 1, 1) == BAY_MARKET_ASK_OUT_OF_RANGE, "an ask beyond");
    expect(clear_one(1, BAY_MARKET_MAX_BAYS + 1, 1, 1) == BAY_MARKET_BAYS_OUT_OF_RANGE, "bays beyond");
    expect(clear_one(1, 0, 1, 1) == BAY_MARKET_BAYS_OUT_OF_RANGE, "no bays");
    expect(clear_one(1, 1, BAY_MARKET_MAX_AMOUNT + 1, 1) == BAY_MARKET_AMOUNT_OUT_OF_RANGE, "an amount beyond");
    expect(clear_one(1, 1, 0, 1) == BAY_MARKET_AMOUNT_OUT_OF_RANGE, "no amount");
    expect(clear_one(1, 1, 1, price + 1) == BAY_MARKET_BID_OUT_OF_RANGE, "a bid beyond");
}

/* Posts case E as desk 7's next round to a ledger with the given accounts. */
static uint8_t post_to(uint64_t house, uint32_t round)
{
    uint32_t last[BAY_MARKET_MAX_DESKS] = {0, 9, 9, 9, 9, 9, 9, round};
    uint64_t guests[2] = {0};
    struct bay_market_station_account stations[2] = {{0, 0}, {0, 0}};

    return bay_market_post(1, asks, m, bays, m, amounts, n, tickets, n, bids, 4, m, 7, round + 1, guests, 2,
                           stations, 2, &house, last, BAY_MARKET_MAX_DESKS);
}

static void test_ledger_limits(void)
{
    expect(post_to(BAY_MARKET_MAX_ACCOUNT - 6, 0) == BAY_MARKET_ACCEPTED, "an account at its limit");
    expect(post_to(BAY_MARKET_MAX_ACCOUNT - 5, 0) == BAY_MARKET_ACCOUNT_OVER_LIMIT, "an account beyond");
    expect(post_to(0, BAY_MARKET_MAX_ROUND - 1) == BAY_MARKET_ACCEPTED, "the last round");
    expect(post_to(0, BAY_MARKET_MAX_ROUND) == BAY_MARKET_ROUND_OUT_OF_TURN, "no round is left");
}

static void test_post(void)
{
    uint64_t guests[3] = {0};
    struct bay_market_station_account stations[2] = {{0, 0}, {0, 0}};
    uint64_t house = 0;
    uint32_t last[9] = {0};
    uint8_t answer;

    for (int posting = 0; posting < 2; posting++) {
        answer = bay_market_post(1, asks, m, bays, m, amounts, n, tickets, n, bids, 4, m, 0, 1, guests, 3, stations, 2,
                                 &house, last, 8);
        expect(answer == (posting == 0 ? BAY_MARKET_ACCEPTED : BAY_MARKET_ROUND_OUT_OF_TURN), "round 1 is posted once");
        expect(guests[0] == 24 && guests[1] == 0 && guests[2] == 0, "guest accounts");
        expect(stations[0].sold == 3 && stations[0].paid == 18 && stations[1].sold == 0 && stations[1].paid == 0,
               "station accounts");
        expect(house == 6 && last[0] == 1, "house and last round");
    }
    for (size_t lasts = 7; lasts <= 9; lasts++) {
        answer = bay_market_post(1, asks, m, bays, m, amounts, n, tickets, n, bids, 4, m, 8, 7, guests, 3, stations, 2,
                                 &house, last, lasts);
        expect(answer == (lasts == 8 ? BAY_MARKET_DESK_OUT_OF_RANGE : BAY_MARKET_BOOK_SIZE), "eight desks, no ninth");
    }
    for (uint8_t desk = 1; desk < BAY_MARKET_MAX_DESKS; desk++) {
        answer = bay_market_post(1, asks, m, bays, m, amounts, n, tickets, n, bids, 4, m, desk, 1, guests, 3, stations,
                                 2, &house, last, 8);
        expect(answer == BAY_MARKET_ACCEPTED && last[desk] == 1 && last[desk + 1] == 0, "each desk has its round 1");
        expect(guests[0] == (desk + 1) * 24u && house == (desk + 1) * 6u, "accounts are the sums of all desks' rounds");
    }
}

/* Null pointers where the length is 0: no guests, no sheet, no ledger. */
static void test_null(void)
{
    const uint32_t ask = 5;
    const uint16_t bay = 1;
    uint32_t sold = 77, cut = 77, last[BAY_MARKET_MAX_DESKS] = {0}, joined_ask = 77, floor = 77;
    uint16_t joined_bay = 77;
    uint8_t correct = 77;
    uint64_t paid = 77, margin = 77, house = 3;
    int64_t gain = 77, other_gain = 77;
    struct bay_market_station_account station = {1, 2};
    uint8_t output[10];
    size_t length = 77;

    expect(bay_market_write(&ask, 1, &bay, 1, NULL, 0, NULL, 0, NULL, 0, 1, NULL, 0, &length)
           == BAY_MARKET_OUTPUT_TOO_SHORT, "no output");
    expect(bay_market_write(&ask, 1, &bay, 1, NULL, 0, NULL, 0, NULL, 0, 1, output, sizeof output, &length)
           == BAY_MARKET_ACCEPTED && length == sizeof output, "a market with no guests is written");
    expect(bay_market_write(NULL, 0, NULL, 0, NULL, 0, NULL, 0, NULL, 0, 0, NULL, 0, &length)
           == BAY_MARKET_COUNTS_OUT_OF_RANGE, "no station to write");
    expect(bay_market_clear(1, &ask, 1, &bay, 1, NULL, 0, NULL, 0, NULL, 0, 1, NULL, 0, NULL, 0, &sold, 1, &paid, 1,
                            &cut, &margin) == BAY_MARKET_ACCEPTED, "a market with no guests is cleared");
    expect(sold == 0 && paid == 0 && cut == 5 && margin == 0, "nobody buys");
    expect(bay_market_post(1, &ask, 1, &bay, 1, NULL, 0, NULL, 0, NULL, 0, 1, 0, 1, NULL, 0, &station, 1, &house, last,
                           8) == BAY_MARKET_ACCEPTED, "a market with no guests is posted");
    expect(station.sold == 1 && station.paid == 2 && house == 3 && last[0] == 1, "only the round is posted");
    expect(bay_market_clear(1, NULL, 0, NULL, 0, NULL, 0, NULL, 0, NULL, 0, 0, NULL, 0, NULL, 0, NULL, 0, NULL, 0, &cut,
                            &margin) == BAY_MARKET_COUNTS_OUT_OF_RANGE, "no station");
    sold = 77, paid = 77, cut = 77, margin = 77;
    expect(bay_market_clear_efficient(1, &ask, 1, &bay, 1, NULL, 0, NULL, 0, NULL, 0, 1, NULL, 0, NULL, 0, &sold, 1,
                                      &paid, 1, &cut, &margin) == BAY_MARKET_ACCEPTED, "a quiet round with no guests");
    expect(sold == 0 && paid == 0 && cut == 5 && margin == 0, "nobody buys in it");
    expect(bay_market_clear_efficient(1, NULL, 0, NULL, 0, NULL, 0, NULL, 0, NULL, 0, 0, NULL, 0, NULL, 0, NULL, 0,
                                      NULL, 0, &cut, &margin) == BAY_MARKET_COUNTS_OUT_OF_RANGE, "one with no station");
    expect(bay_market_explain(1, &ask, 1, &bay, 1, NULL, 0, NULL, 0, NULL, 0, 1, NULL, 0, NULL, 0, NULL, 0, NULL, 0)
           == BAY_MARKET_ACCEPTED, "no guests to tell");
    expect(bay_market_explain(1, NULL, 0, NULL, 0, NULL, 0, NULL, 0, NULL, 0, 0, NULL, 0, NULL, 0, NULL, 0, NULL, 0)
           == BAY_MARKET_COUNTS_OUT_OF_RANGE, "no station to tell of");
    expect(bay_market_try(1, NULL, 0, NULL, 0, NULL, 0, NULL, 0, NULL, 0, 0, 0, NULL, 0, NULL, 0, NULL, 0, &gain,
                          &other_gain) == BAY_MARKET_COUNTS_OUT_OF_RANGE, "no station to try");
    expect(bay_market_try(1, &ask, 1, &bay, 1, NULL, 0, NULL, 0, NULL, 0, 1, 1, NULL, 0, NULL, 0, NULL, 0, &gain,
                          &other_gain) == BAY_MARKET_NO_SUCH_GUEST, "no guests to try");
    expect(bay_market_try(1, &ask, 1, &bay, 1, &bay, 1, &ask, 1, &ask, 1, 1, 1, &ask, 1, &ask, 1, NULL, 0, &gain,
                          &other_gain) == BAY_MARKET_LENT_LENGTHS, "no list of changes");
    expect(gain == 77 && other_gain == 77, "no gain is written");
    expect(bay_market_menu(1, NULL, 0, NULL, 0, NULL, 0, NULL, 0, NULL, 0, 0, 1, NULL, 0, NULL, 0)
           == BAY_MARKET_COUNTS_OUT_OF_RANGE, "no station on a list");
    expect(bay_market_menu(1, &ask, 1, &bay, 1, &bay, 1, &ask, 1, &ask, 1, 1, 1, NULL, 0, NULL, 0)
           == BAY_MARKET_LENT_LENGTHS, "no room for a list");
    expect(bay_market_gains(1, NULL, 0, NULL, 0, NULL, 0, NULL, 0, NULL, 0, 0, 1, NULL, 0, NULL, 0, NULL, 0)
           == BAY_MARKET_COUNTS_OUT_OF_RANGE, "no station to gain at");
    sold = 77, paid = 77, cut = 77, margin = 77;
    expect(bay_market_clear_marked(1, &ask, 1, &bay, 1, NULL, 0, NULL, 0, NULL, 0, 1, NULL, 0, NULL, 0, &sold, 1, &paid,
                                   1, NULL, 0, &floor, 1, &cut, &margin) == BAY_MARKET_ACCEPTED, "no places");
    expect(sold == 0 && paid == 0 && floor == 0 && cut == 5 && margin == 0, "a floor of 0");
    expect(bay_market_mark(1, &ask, 1, &bay, 1, NULL, 0, NULL, 0, NULL, 0, 1, NULL, 0, NULL, 0, &sold, 1, &paid, 1,
                           NULL, 0, &floor, 1, cut, margin, &correct) == BAY_MARKET_ACCEPTED && correct == 1,
           "it is passed with no guests");
    correct = 77;
    expect(bay_market_mark(1, &ask, 1, &bay, 1, NULL, 0, NULL, 0, NULL, 0, 1, NULL, 0, NULL, 0, NULL, 0, NULL, 0, NULL,
                           0, NULL, 0, cut, margin, &correct) == BAY_MARKET_LENT_LENGTHS && correct == 77,
           "nothing is handed in");
    expect(bay_market_mark(1, NULL, 0, NULL, 0, NULL, 0, NULL, 0, NULL, 0, 0, NULL, 0, NULL, 0, NULL, 0, NULL, 0, NULL,
                           0, NULL, 0, cut, margin, &correct) == BAY_MARKET_COUNTS_OUT_OF_RANGE && correct == 77,
           "no station to mark");
    expect(bay_market_post(1, NULL, 0, NULL, 0, NULL, 0, NULL, 0, NULL, 0, 0, 0, 1, NULL, 0, NULL, 0, &house, NULL, 0)
           == BAY_MARKET_COUNTS_OUT_OF_RANGE, "no station to post");
    expect(bay_market_post(1, &ask, 1, &bay, 1, NULL, 0, NULL, 0, NULL, 0, 1, 0, 2, NULL, 0, NULL, 0, &house, NULL, 0)
           == BAY_MARKET_BOOK_SIZE, "no ledger");
    expect(bay_market_read(NULL, 0, NULL, 0, NULL, 0, NULL, 0, NULL, 0, NULL, 0, &n, &m) == BAY_MARKET_LENT_LENGTHS,
           "no tables");
    expect(read_sheet(NULL, 0) == BAY_MARKET_SHEET_ENDS, "no sheet");
    expect(bay_market_read_csv(NULL, 0, NULL, 0, NULL, 0, NULL, 0, NULL, 0, NULL, 0, &n, &m)
           == BAY_MARKET_LENT_LENGTHS, "no tables for a text");
    expect(bay_market_read_csv(NULL, 0, amounts, BAY_MARKET_MAX_GUESTS, tickets, BAY_MARKET_MAX_GUESTS, asks,
                               BAY_MARKET_MAX_STATIONS, bays, BAY_MARKET_MAX_STATIONS, bids, BAY_MARKET_MAX_BIDS,
                               &n, &m)
           == BAY_MARKET_MALFORMED_TEXT, "no text");
    expect(bay_market_place_bids(NULL, 0, NULL, 0, NULL, 0, NULL, 0, &bay, 1, &bay, 1, NULL, 0) == BAY_MARKET_ACCEPTED,
           "no guests to place");
    expect(bay_market_place_bids(NULL, 0, NULL, 0, NULL, 0, NULL, 0, NULL, 0, NULL, 0, NULL, 0)
           == BAY_MARKET_COUNTS_OUT_OF_RANGE, "no station to walk to");
    expect(bay_market_place_bids(NULL, 0, NULL, 0, &bay, 1, NULL, 0, &bay, 1, NULL, 0, NULL, 0)
           == BAY_MARKET_LENGTHS_DIFFER, "no prices");
    expect(bay_market_join(&ask, 1, &bay, 1, NULL, 0, NULL, 0, NULL, 0, 1, &ask, 1, &bay, 1, NULL, 0, NULL, 0, NULL, 0,
                           1, &joined_ask, 1, &joined_bay, 1, NULL, 0, NULL, 0, NULL, 0) == BAY_MARKET_ACCEPTED,
           "no guests to join");
    expect(joined_ask == ask && joined_bay == bay, "the stations of two empty gates");
}

static void test_texts(void)
{
    const uint8_t beyond = BAY_MARKET_DESK_OUT_OF_RANGE + 1;

    expect(strcmp(bay_market_refusal_text(BAY_MARKET_ACCEPTED), "accepted") == 0, "the text of 0");
    expect(strcmp(bay_market_refusal_text(beyond), bay_market_refusal_text(255)) == 0, "no answer of the engine");
    for (uint8_t one = 0; one < beyond; one++) {
        for (uint8_t two = (uint8_t)(one + 1); two <= beyond; two++) {
            expect(strcmp(bay_market_refusal_text(one), bay_market_refusal_text(two)) != 0, "each answer has its text");
        }
    }
    expect(strcmp(bay_market_code_text(BAY_MARKET_HELD), "place held") == 0, "the text of a place held");
    expect(strcmp(bay_market_code_text(BAY_MARKET_OUTBID), "outbid") == 0, "the text of an outbid guest");
    expect(strcmp(bay_market_code_text(BAY_MARKET_OUTBID + 1), bay_market_code_text(255)) == 0, "no code");
    for (uint8_t one = 0; one <= BAY_MARKET_OUTBID; one++) {
        for (uint8_t two = (uint8_t)(one + 1); two <= BAY_MARKET_OUTBID + 1; two++) {
            expect(strcmp(bay_market_code_text(one), bay_market_code_text(two)) != 0, "each code has its text");
        }
    }
}

int main(void)
{
    test_read();
    test_csv();
    test_write();
    test_clear();
    test_tickets();
    test_rules();
    test_efficient();
    test_floor();
    test_explain();
    test_explain_table_i();
    test_try();
    test_menu();
    test_gains();
    test_mark_refused();
    test_mark();
    test_places();
    test_placed_market();
    test_join();
    test_post();
    test_limits();
    test_ledger_limits();
    test_null();
    test_texts();
    if (failures == 0) {
        puts("C test: all as expected");
    }
    return failures != 0;
}
