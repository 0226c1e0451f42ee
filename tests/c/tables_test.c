/*
 * The functions over structs: each gives what the function with pointers and lengths gives, of a market whose lists are
 * all different and of others, and refuses counts beyond the limits before it looks at a list.
 */
#include "bay_market.h"

#include <stdio.h>
#include <string.h>

enum { N = 3, M = 2, DRAWN = 60 };

static int failures = 0;

static void expect(int holds, const char *what)
{
    if (!holds) {
        fprintf(stderr, "failed: %s\n", what);
        failures++;
    }
}

/* all bytes of two lists or structs, where padding is that of memset */
#define SAME(one, other, what) expect(memcmp(&(one), &(other), sizeof(one)) == 0, what)
#define FILLED(object) memset(&(object), 77, sizeof(object))

static uint32_t asks[M] = {2, 6}, tickets[N] = {5, 7, 1}, bids[N * M] = {8, 0, 10, 1, 8, 3};
static uint16_t bays[M] = {1, 4}, amounts[N] = {3, 2, 3};
static const struct bay_market_tables tables = {N, M, asks, bays, amounts, tickets, bids};
static const uint8_t rules[] = {BAY_MARKET_RULE_MEDIAN, BAY_MARKET_RULE_TWO_THIRDS, 3};

#define MARKET asks, M, bays, M, amounts, N, tickets, N, bids, N *M, M

/* Below a limit. */
static uint16_t draw(uint16_t limit)
{
    static uint32_t state = 1;

    state = state * 1103515245 + 12345;
    return (uint16_t)((state >> 16) % limit);
}

/* Another market in place of the one that there is. */
static void draw_market(void)
{
    for (size_t j = 0; j < M; j++) {
        asks[j] = draw(12);
        bays[j] = (uint16_t)(1 + draw(2));
    }
    for (size_t i = 0; i < N; i++) {
        amounts[i] = (uint16_t)(1 + draw(9));
        tickets[i] = (uint32_t)(N * draw(9) + i); /* another for each guest */
    }
    for (size_t k = 0; k < N * M; k++) {
        bids[k] = draw(30);
    }
}

static void test_version(void)
{
    expect(bay_market_version() == BAY_MARKET_VERSION_NUMBER, "the library is of this header's version");
    expect(bay_market_linked() == bay_market_version(), "and so says the function that is named after it");
}

static void test_read_and_write(void)
{
    static const char text[] = "2,6\r\n1,4\r\n5,3,8,\r\n7,2,10,1\r\n1,3,8,3\r\n";
    static uint8_t one[BAY_MARKET_MAX_SHEET], other[BAY_MARKET_MAX_SHEET];
    static struct bay_market_market read, from_text, by_list;
    struct bay_market_tables lent;
    size_t length = 77, length2 = 77;

    expect(bay_market_write(MARKET, one, sizeof one, &length) == 0, "written");
    expect(bay_market_write_tables(&tables, other, sizeof other, &length2) == 0, "written over tables");
    expect(length == length2, "the length");
    SAME(one, other, "the sheet");
    expect(bay_market_write_tables(&tables, other, length - 1, &length2) == BAY_MARKET_OUTPUT_TOO_SHORT, "14");

    FILLED(read);
    FILLED(from_text);
    FILLED(by_list);
    expect(bay_market_read(one, length, by_list.amounts, 200, by_list.tickets, 200, by_list.asks, 40, by_list.bays, 40,
                           by_list.bids, 8000, &by_list.guests, &by_list.stations) == 0, "read");
    expect(bay_market_read_tables(one, length, &read) == 0, "read into a market");
    SAME(read, by_list, "what is read");
    expect(bay_market_read_csv_tables((const uint8_t *)text, sizeof text - 1, &from_text) == 0, "a text is read");
    SAME(from_text, by_list, "what is read of a text");
    expect(bay_market_read_tables(one, length - 1, &read) == BAY_MARKET_SHEET_ENDS, "1");
    expect(bay_market_read_csv_tables((const uint8_t *)text, sizeof text, &from_text) == BAY_MARKET_MALFORMED_TEXT, "22");
    SAME(read, by_list, "a refused reading changes nothing");

    lent = bay_market_tables_of(&read);
    expect(lent.guests == N && lent.stations == M && lent.asks == read.asks && lent.bays == read.bays
           && lent.amounts == read.amounts && lent.tickets == read.tickets && lent.bids == read.bids, "its tables");
    expect(memcmp(lent.bids, bids, sizeof bids) == 0 && memcmp(lent.bays, bays, sizeof bays) == 0, "as they were");
}

static void test_places(void)
{
    static const uint32_t prices[N] = {500, 400, 300}, falls[N] = {2, 3, 4};
    static const uint16_t guest_first[N] = {3, 0, 7}, guest_second[N] = {4, 1, 5};
    static const uint16_t station_first[M] = {0, 1}, station_second[M] = {2, 6};
    static const struct bay_market_places places = {N, M, prices, falls, guest_first, guest_second, station_first,
                                                    station_second};
    uint32_t one[N * M], other[N * M];

    expect(bay_market_place_bids(prices, N, falls, N, guest_first, N, guest_second, N, station_first, M,
                                 station_second, M, one, N * M) == 0, "placed");
    expect(bay_market_place_bids_tables(&places, other) == 0, "placed over places");
    SAME(one, other, "placed bids");
}

static void test_join(void)
{
    static const uint32_t tickets2[2] = {6, 2}, bids2[2 * M] = {9, 4, 0, 7};
    static const uint16_t amounts2[2] = {4, 1};
    static const struct bay_market_tables second = {2, M, asks, bays, amounts2, tickets2, bids2};
    static const uint32_t asks3[3] = {2, 7, 1}, bids3[6] = {9, 4, 0, 7, 1, 2};
    static const uint16_t bays3[3] = {1, 3, 1};
    static const struct bay_market_tables others[] = {{2, M, asks3, bays, amounts2, tickets2, bids2},
                                                      {2, M, asks, bays3, amounts2, tickets2, bids2},
                                                      {2, 3, asks3, bays3, amounts2, tickets2, bids3}};
    static struct bay_market_market one, other;

    FILLED(one);
    FILLED(other);
    one.guests = other.guests = N + 2;
    one.stations = other.stations = M;
    expect(bay_market_join(MARKET, asks, M, bays, M, amounts2, 2, tickets2, 2, bids2, 2 * M, M, one.asks, M, one.bays, M,
                           one.amounts, N + 2, one.tickets, N + 2, one.bids, (N + 2) * M) == 0, "joined");
    expect(bay_market_join_tables(&tables, &second, &other) == 0, "joined over tables");
    SAME(one, other, "the joined market");
    other.guests = N;
    expect(bay_market_join_tables(&tables, &second, &other) == BAY_MARKET_LENT_LENGTHS, "another count of guests");
    other.guests = N + 2;
    other.stations = BAY_MARKET_MAX_STATIONS;
    expect(bay_market_join_tables(&tables, &second, &other) == BAY_MARKET_LENT_LENGTHS, "another count of stations");
    expect(bay_market_join_tables(&tables, &tables, &other) == BAY_MARKET_TICKET_IN_BOTH, "a market with itself");
    for (size_t k = 0; k < sizeof others / sizeof *others; k++) {
        expect(bay_market_join_tables(&tables, &others[k], &other) == BAY_MARKET_STATIONS_DIFFER, "other stations");
    }
}

static void test_clear(uint8_t rule)
{
    static struct bay_market_results one, other;
    uint8_t answer;

    FILLED(one);
    FILLED(other);
    answer = bay_market_clear(rule, MARKET, one.stations, N, one.charges, N, one.sold, M, one.paid, M, &one.cut,
                              &one.margin);
    expect(bay_market_clear_tables(rule, &tables, &other) == answer, "a clearing's answer");
    SAME(one, other, "a clearing");
    answer = bay_market_clear_efficient(rule, MARKET, one.stations, N, one.charges, N, one.sold, M, one.paid, M,
                                        &one.cut, &one.margin);
    expect(bay_market_clear_efficient_tables(rule, &tables, &other) == answer, "an efficient clearing's answer");
    SAME(one, other, "an efficient clearing");
}

static void test_mark(uint8_t rule, int spoil)
{
    static struct bay_market_submission marked, marked2;
    uint8_t answer, correct = 77, correct2 = 77;

    FILLED(marked);
    FILLED(marked2);
    answer = bay_market_clear_marked(rule, MARKET, marked.clearing.stations, N, marked.clearing.charges, N,
                                     marked.clearing.sold, M, marked.clearing.paid, M, marked.places, N * M,
                                     marked.floors, M, &marked.clearing.cut, &marked.clearing.margin);
    expect(bay_market_clear_marked_tables(rule, &tables, &marked2) == answer, "a marked clearing's answer");
    SAME(marked, marked2, "a marked clearing");
    answer = bay_market_mark(rule, MARKET, marked.clearing.stations, N, marked.clearing.charges, N,
                             marked.clearing.sold, M, marked.clearing.paid, M, marked.places, N * M, marked.floors, M,
                             marked.clearing.cut, marked.clearing.margin, &correct);
    expect(bay_market_mark_tables(rule, &tables, &marked2, &correct2) == answer && correct == correct2, "a mark");
    expect(correct == (rule == 3 ? 77 : 1), "it is passed");
    for (size_t at = 0; spoil && rule != 3 && at < sizeof marked2; at++) {
        unsigned char *bytes = (unsigned char *)&marked2;
        int within = bytes[at] != 77; /* what the clearing did not write is still 77 */
        bytes[at] ^= 1;
        expect(bay_market_mark_tables(rule, &tables, &marked2, &correct2) == 0 && (!within || correct2 == 0),
               "whatever is changed of it is seen");
        bytes[at] ^= 1;
    }
}

static void test_telling(uint8_t rule)
{
    static const uint32_t worths[M] = {10, 1}, row[M] = {14, 9}, rows[2 * M] = {10, 1, 14, 9};
    static struct bay_market_explanation told, told2;
    static struct bay_market_tried tried, tried2;
    static struct bay_market_price_list list, list2;
    int64_t gains[2] = {77, 77}, gains2[2] = {77, 77};
    uint8_t answer;

    FILLED(told);
    FILLED(told2);
    answer = bay_market_explain(rule, MARKET, told.codes, N * M, told.stations, N, told.charges, N, told.reasons, N);
    expect(bay_market_explain_tables(rule, &tables, &told2) == answer, "an explanation's answer");
    SAME(told, told2, "an explanation");
    FILLED(tried);
    FILLED(tried2);
    answer = bay_market_try(rule, MARKET, 2, worths, M, row, M, tried.changes, N, &tried.first_gain,
                            &tried.second_gain);
    expect(bay_market_try_tables(rule, &tables, 2, worths, row, &tried2) == answer, "a tried row's answer");
    SAME(tried, tried2, "a tried row");
    FILLED(list);
    FILLED(list2);
    answer = bay_market_menu(rule, MARKET, 2, list.bars, M, list.prices, M);
    expect(bay_market_menu_tables(rule, &tables, 2, &list2) == answer, "a price list's answer");
    SAME(list, list2, "a price list");
    answer = bay_market_gains(rule, MARKET, 2, worths, M, rows, 2 * M, gains, 2);
    expect(bay_market_gains_tables(rule, &tables, 2, worths, rows, 2 * M, gains2, 2) == answer, "gains' answer");
    SAME(gains, gains2, "gains");
}

static void test_post(uint8_t rule)
{
    static struct bay_market_ledger one, other;
    const struct bay_market_ledger empty = {{0}, {{0, 0}}, 0, {0}};
    uint8_t answer;

    one = other = empty;
    answer = bay_market_post(rule, MARKET, 5, 1, one.guests, 200, one.stations, 40, &one.house, one.last, 8);
    expect(bay_market_post_tables(rule, &tables, 5, 1, &other) == answer, "a posting's answer");
    SAME(one, other, "a posting");
    expect(other.last[5] == (rule != 3), "the round is posted");
    expect(bay_market_post_tables(rule, &tables, 8, 1, &other) == (rule == 3 ? 18 : BAY_MARKET_DESK_OUT_OF_RANGE), "25");
}

/* Counts beyond the limits, with pointers that may not be read through, and with a product that is 0 in 64 bits. */
static void test_counts(void)
{
    static const size_t counts[][2] = {{201, 2}, {3, 0}, {3, 41}, {SIZE_MAX, 2}, {2, SIZE_MAX}, {SIZE_MAX, SIZE_MAX},
                                       {(size_t)1 << 32, (size_t)1 << 32}};
    static struct bay_market_results results, results_before;
    static struct bay_market_submission submission, submission_before;
    static struct bay_market_explanation told, told_before;
    static struct bay_market_market joined, joined_before;
    static struct bay_market_ledger ledger;
    static struct bay_market_tried tried;
    static struct bay_market_price_list list;
    uint8_t correct = 77, sheet[1] = {77};
    size_t length = 77;

    FILLED(results);
    FILLED(submission);
    FILLED(told);
    FILLED(joined);
    results_before = results;
    submission_before = submission;
    told_before = told;
    joined_before = joined;
    for (size_t k = 0; k < sizeof counts / sizeof *counts; k++) {
        const struct bay_market_tables t = {counts[k][0], counts[k][1], NULL, NULL, NULL, NULL, NULL};
        const struct bay_market_places p = {counts[k][0], counts[k][1], NULL, NULL, NULL, NULL, NULL, NULL};
        const uint8_t answers[] = {
            bay_market_write_tables(&t, sheet, 1, &length), bay_market_place_bids_tables(&p, NULL),
            bay_market_join_tables(&t, &tables, &joined), bay_market_join_tables(&tables, &t, &joined),
            bay_market_clear_tables(1, &t, &results), bay_market_clear_efficient_tables(1, &t, &results),
            bay_market_clear_marked_tables(1, &t, &submission), bay_market_mark_tables(1, &t, &submission, &correct),
            bay_market_explain_tables(1, &t, &told), bay_market_try_tables(1, &t, 1, NULL, NULL, &tried),
            bay_market_menu_tables(1, &t, 1, &list), bay_market_gains_tables(1, &t, 1, NULL, NULL, 0, NULL, 0),
            bay_market_post_tables(1, &t, 0, 1, &ledger),
        };
        for (size_t i = 0; i < sizeof answers; i++) {
            expect(answers[i] == BAY_MARKET_COUNTS_OUT_OF_RANGE, "counts beyond the limits are refused with 2");
        }
    }
    SAME(results, results_before, "a refused clearing writes nothing");
    SAME(submission, submission_before, "nor does a marked one");
    SAME(told, told_before, "nor an explanation");
    SAME(joined, joined_before, "nor a joining");
    expect(correct == 77 && sheet[0] == 77 && length == 77, "nor a mark, nor a writing");
}

int main(void)
{
    test_version();
    test_read_and_write();
    test_places();
    test_join();
    for (size_t k = 0; k < sizeof rules; k++) {
        test_clear(rules[k]);
        test_mark(rules[k], 1);
        test_telling(rules[k]);
        test_post(rules[k]);
    }
    test_counts();
    for (size_t k = 0; k < DRAWN; k++) {
        draw_market();
        test_clear(rules[k % 2]);
        test_mark(rules[k % 2], 0);
        test_telling(rules[k % 2]);
        test_post(rules[k % 2]);
    }
    if (failures == 0) {
        puts("C test over structs: all as expected");
    }
    return failures != 0;
}
