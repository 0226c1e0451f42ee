/*
 * The bay market: reading and writing market sheets, reading comma-separated markets, placing bids from parking places,
 * joining two gates' markets, clearing a market, in a truthful round or in an efficient one for quiet days, telling
 * guests what decided a truthful round, telling one what another row of bids would have done, giving it its price list
 * and the gains of many rows, marking a clearing that is handed in, posting a round to a ledger.
 *
 * For x86-64 and AArch64 Linux: link libbay_market.a, or libbay_market.so. Both need memcpy and memset of the C library
 * and nothing else; docs/TARGETS.md says what is proved of each. Nothing is allocated; a call takes at most
 * BAY_MARKET_MAX_STACK bytes of stack, but for bay_market_read_csv, which takes at most BAY_MARKET_MAX_STACK_READ_CSV,
 * and bay_market_try, which takes at most BAY_MARKET_MAX_STACK_TRY.
 *
 * Every function but bay_market_version answers 0, or the number of the first fault found (enum bay_market_refusal). A
 * call that is refused has changed no lent memory. Any lengths and values may be lent; every call returns.
 *
 * Each function is there twice: with a pointer and a length for each list, and at the end of this file over structs, in
 * which every list has its name, as bay_market_clear_tables. C++ has both, and bay_market.hpp.
 *
 * The caller owes what a C function cannot test: a pointer is aligned and has as many elements as the length after
 * it says; what a call may write overlaps nothing else that it is lent. Where the length is 0 the pointer may be null:
 * nothing is read or written through it. A pointer with no length after it is not null and has one element.
 * Calls share no state, so threads may call at the same time on different memory.
 *
 * MIND THE ORDER OF ARGUMENTS. bay_market_read and bay_market_read_csv take amounts, tickets, asks, bays, bids, as a
 * reader fills them; bay_market_write, bay_market_join, bay_market_clear, bay_market_clear_efficient,
 * bay_market_explain, bay_market_try, bay_market_menu, bay_market_gains, bay_market_clear_marked, bay_market_mark and
 * bay_market_post take asks, bays, amounts, tickets, bids, the last nine after the rule's number. Amounts and bays have
 * one type, tickets, asks and bids another, so a compiler cannot see a swap. bay_market_place_bids takes prices, falls,
 * then the guests' first and second coordinates, then the stations'. bay_market_try and bay_market_gains take a guest's
 * worths, then its other row or rows, both lists of prices; bay_market_menu takes bars, then prices, which have one
 * type. bay_market_clear_marked and bay_market_mark take stations, charges, sold, paid, places, floors; charges, sold
 * and floors have one type.
 *
 * Prices are in mills (thousandths of the currency unit) per kWh, charges and payments in mills,
 * amounts in whole kWh. Guests and stations are numbered from 1; element 0 of a table is number 1. A ticket is any
 * 32-bit number, another for each guest; of equal totals the lower ticket stands first.
 */
#ifndef BAY_MARKET_H
#define BAY_MARKET_H

#include <stddef.h>
#include <stdint.h>

#if !defined __wasm__ && !(defined __linux__ && defined __LP64__ && (defined __x86_64__ || defined __AARCH64EL__))
#error "libbay_market is made for x86-64 and little-endian AArch64 Linux; js/ has the engine for other machines"
#endif

#ifdef __cplusplus
extern "C" {
#endif

/*
 * The version of this header, also as one number, by which 1.2.3 is 1002003. bay_market_version gives the number of the
 * library. From 1.0.0 on a function keeps its name and parameters; one that needs others gets a new name.
 *
 * A library exports a function for each version whose callers it serves, named after that version, and whatever
 * includes this header refers to its own. So an older library is not linked: the linker says that bay_market_1_0_0 is
 * undefined, and so does the loader of a position-independent program. Where no library is linked, since dlopen loads
 * it or limits and texts alone are used, BAY_MARKET_UNLINKED is defined before this header is included.
 */
#define BAY_MARKET_VERSION "1.0.0"
#define BAY_MARKET_VERSION_NUMBER 1000000

uint32_t bay_market_version(void);
uint32_t bay_market_1_0_0(void);

#ifndef BAY_MARKET_UNLINKED
static uint32_t (*const bay_market_linked)(void)
#if defined __has_attribute
#if __has_attribute(retain)
    __attribute__((retain)) /* also by a linker that drops what nothing refers to */
#endif
#endif
    __attribute__((used)) = bay_market_1_0_0;
#endif

/* Limits. Amounts and bays are at least 1, and so is the number of stations. */
#define BAY_MARKET_MAX_GUESTS 200
#define BAY_MARKET_MAX_STATIONS 40
#define BAY_MARKET_MAX_DESKS 8                        /* that share a ledger; they are numbered from 0 */
#define BAY_MARKET_MAX_BIDS 8000                      /* guests times stations */
#define BAY_MARKET_MAX_PRICE 1000000                  /* of an ask, a bid, a worth, a price and a fall */
#define BAY_MARKET_MAX_AMOUNT 1000
#define BAY_MARKET_MAX_BAYS 200
#define BAY_MARKET_MAX_CELL 31                        /* of a cell's coordinate; the least is 0 */
#define BAY_MARKET_MAX_SHEET 34444                    /* bytes of the largest sheet */
#define BAY_MARKET_MAX_TEXT 93482                     /* bytes of the longest comma-separated market */
#define BAY_MARKET_MAX_ACCOUNT UINT64_C(1000000000000000)
#define BAY_MARKET_MAX_ROUND UINT32_C(4294967295)
#define BAY_MARKET_NO_BAR UINT32_C(4294967295)        /* the bar of a station that is not open (bay_market_menu) */
#define BAY_MARKET_MAX_STACK 16384                    /* bytes of stack that a call takes at most, */
#define BAY_MARKET_MAX_STACK_READ_CSV 40960           /* one of bay_market_read_csv, with tables of its own, */
#define BAY_MARKET_MAX_STACK_TRY 45056                /* and one of bay_market_try, with a copy of the bids */

/*
 * The rule of a clearing, an explanation, a tried row, a mark or a posting: the position, from 1, of the cut among the
 * m asks in rising order. Under rule 1 it is ceil((m + 1) / 2), under rule 2 floor(2 m / 3) + 1. Asks 1, 2, 3, 4, 5, 6
 * give cut 4 under rule 1 and 5 under rule 2. Two markets are compared, for what a false report would gain, only under
 * one rule.
 */
#define BAY_MARKET_RULE_MEDIAN 1
#define BAY_MARKET_RULE_TWO_THIRDS 2

/* What decided about a guest at a station (bay_market_explain): the first of 1 to 4 that applies, else 0. */
enum bay_market_code {
    BAY_MARKET_HELD = 0,      /* the guest holds a place there, seated there or elsewhere */
    BAY_MARKET_NO_BID = 1,    /* its bid there is 0 */
    BAY_MARKET_NOT_OPEN = 2,  /* the station's ask is not below the cut */
    BAY_MARKET_BELOW_CUT = 3, /* its bid there is below the cut */
    BAY_MARKET_OUTBID = 4     /* it is a candidate there without a place */
};

/* What a code says. */
static inline const char *bay_market_code_text(uint8_t code)
{
    switch (code) {
    case BAY_MARKET_HELD: return "place held";
    case BAY_MARKET_NO_BID: return "no bid";
    case BAY_MARKET_NOT_OPEN: return "station not open";
    case BAY_MARKET_BELOW_CUT: return "bid below the cut";
    case BAY_MARKET_OUTBID: return "outbid";
    default: return "not a code of the engine";
    }
}

/* What another row of a guest does to another guest (bay_market_try). */
enum bay_market_change {
    BAY_MARKET_UNCHANGED = 0,       /* it is seated in both rounds or in neither */
    BAY_MARKET_BECOMES_SEATED = 1,  /* it is seated in the second round alone */
    BAY_MARKET_BECOMES_UNSEATED = 2 /* it is seated in the first round alone */
};

/* scripts/refusals writes what follows from refusals.txt */
enum bay_market_refusal {
    BAY_MARKET_ACCEPTED = 0,                    /* accepted */
    BAY_MARKET_SHEET_ENDS = 1,                  /* the sheet ends inside a field */
    BAY_MARKET_COUNTS_OUT_OF_RANGE = 2,         /* more than 200 guests, no station, or more than 40 */
    BAY_MARKET_STRAY_BIT = 3,                   /* a bit map has a bit beyond the last station */
    BAY_MARKET_TRAILING_BYTES = 4,              /* bytes follow the last row */
    BAY_MARKET_LENGTHS_DIFFER = 5,              /* a list, the bid table or the row width does not fit the counts */
    BAY_MARKET_ASK_OUT_OF_RANGE = 6,            /* an ask is above 1,000,000 */
    BAY_MARKET_BAYS_OUT_OF_RANGE = 7,           /* a station has no bays or more than 200 */
    BAY_MARKET_AMOUNT_OUT_OF_RANGE = 8,         /* an amount is 0 or above 1,000 */
    BAY_MARKET_BID_OUT_OF_RANGE = 9,            /* a bid or a worth is above 1,000,000 */
    BAY_MARKET_LENT_LENGTHS = 10,               /* a list that is lent or handed in has another length */
    BAY_MARKET_ROUND_OUT_OF_TURN = 11,          /* the round is not the desk's last one plus 1, or no round is left */
    BAY_MARKET_ACCOUNT_OVER_LIMIT = 12,         /* an account is above 10^15, or would be */
    BAY_MARKET_BOOK_SIZE = 13,                  /* the ledger is beyond the limits, too small or not of eight desks */
    BAY_MARKET_OUTPUT_TOO_SHORT = 14,           /* the output is shorter than the sheet */
    BAY_MARKET_TICKETS_REPEAT = 15,             /* two guests have the same ticket */
    BAY_MARKET_CELL_OFF_GRID = 16,              /* a cell is off the grid: a coordinate is above 31 */
    BAY_MARKET_PRICE_OR_FALL_OUT_OF_RANGE = 17, /* a price or fall is above 1,000,000 */
    BAY_MARKET_UNKNOWN_RULE = 18,               /* the number names no rule: it is neither 1 nor 2 */
    BAY_MARKET_EMPTY_BID = 19,                  /* a set bit of the sheet has a bid of 0 */
    BAY_MARKET_STATIONS_DIFFER = 20,            /* two markets differ in their stations' count, asks or bays */
    BAY_MARKET_TICKET_IN_BOTH = 21,             /* a ticket is in both markets */
    BAY_MARKET_MALFORMED_TEXT = 22,             /* a byte of the text, or its end, stands where it may not */
    BAY_MARKET_FIELD_TOO_LARGE = 23,            /* a field has more than ten digits, or does not fit its table */
    BAY_MARKET_NO_SUCH_GUEST = 24,              /* the guest's number is 0 or above the market's guests */
    BAY_MARKET_DESK_OUT_OF_RANGE = 25           /* the desk is none of the eight: its number is above 7 */
};

/* What an answer says. */
static inline const char *bay_market_refusal_text(uint8_t answer)
{
    switch (answer) {
    case BAY_MARKET_ACCEPTED: return "accepted";
    case BAY_MARKET_SHEET_ENDS: return "the sheet ends inside a field";
    case BAY_MARKET_COUNTS_OUT_OF_RANGE: return "more than 200 guests, no station, or more than 40";
    case BAY_MARKET_STRAY_BIT: return "a bit map has a bit beyond the last station";
    case BAY_MARKET_TRAILING_BYTES: return "bytes follow the last row";
    case BAY_MARKET_LENGTHS_DIFFER: return "a list, the bid table or the row width does not fit the counts";
    case BAY_MARKET_ASK_OUT_OF_RANGE: return "an ask is above 1,000,000";
    case BAY_MARKET_BAYS_OUT_OF_RANGE: return "a station has no bays or more than 200";
    case BAY_MARKET_AMOUNT_OUT_OF_RANGE: return "an amount is 0 or above 1,000";
    case BAY_MARKET_BID_OUT_OF_RANGE: return "a bid or a worth is above 1,000,000";
    case BAY_MARKET_LENT_LENGTHS: return "a list that is lent or handed in has another length";
    case BAY_MARKET_ROUND_OUT_OF_TURN: return "the round is not the desk's last one plus 1, or no round is left";
    case BAY_MARKET_ACCOUNT_OVER_LIMIT: return "an account is above 10^15, or would be";
    case BAY_MARKET_BOOK_SIZE: return "the ledger is beyond the limits, too small or not of eight desks";
    case BAY_MARKET_OUTPUT_TOO_SHORT: return "the output is shorter than the sheet";
    case BAY_MARKET_TICKETS_REPEAT: return "two guests have the same ticket";
    case BAY_MARKET_CELL_OFF_GRID: return "a cell is off the grid: a coordinate is above 31";
    case BAY_MARKET_PRICE_OR_FALL_OUT_OF_RANGE: return "a price or fall is above 1,000,000";
    case BAY_MARKET_UNKNOWN_RULE: return "the number names no rule: it is neither 1 nor 2";
    case BAY_MARKET_EMPTY_BID: return "a set bit of the sheet has a bid of 0";
    case BAY_MARKET_STATIONS_DIFFER: return "two markets differ in their stations' count, asks or bays";
    case BAY_MARKET_TICKET_IN_BOTH: return "a ticket is in both markets";
    case BAY_MARKET_MALFORMED_TEXT: return "a byte of the text, or its end, stands where it may not";
    case BAY_MARKET_FIELD_TOO_LARGE: return "a field has more than ten digits, or does not fit its table";
    case BAY_MARKET_NO_SUCH_GUEST: return "the guest's number is 0 or above the market's guests";
    case BAY_MARKET_DESK_OUT_OF_RANGE: return "the desk is none of the eight: its number is above 7";
    default: return "not an answer of the engine";
    }
}
/* end of what scripts/refusals writes */

/* A station's account in the ledger. */
struct bay_market_station_account {
    uint64_t sold; /* kWh */
    uint64_t paid; /* mills */
};

/*
 * Reads a sheet into tables of the greatest size: 200 amounts, 200 tickets, 40 asks, 40 bays, 8,000 bids, IN THIS
 * ORDER, which is not that of the other functions.
 * Fills the first n amounts and tickets, m asks and bays and n times m bids, row after row, and leaves the rest;
 * *n is the number of guests and *m of stations. Whether values are in range, and whether tickets repeat, is the
 * clearing's business.
 *
 * Refusals in this order: 10 for another table length; 1 for fewer than 4 bytes; 2 for the counts;
 * then, field by field, 1 where the sheet ends, after a bit map 3, and 19 for a bid of 0; at the end 4.
 */
uint8_t bay_market_read(const uint8_t *sheet, size_t sheet_len,
                        uint16_t *amounts, size_t amounts_len,
                        uint32_t *tickets, size_t tickets_len,
                        uint32_t *asks, size_t asks_len,
                        uint16_t *bays, size_t bays_len,
                        uint32_t *bids, size_t bids_len,
                        uint16_t *n, uint16_t *m);

/*
 * Reads a comma-separated market into tables of the greatest size, lent IN THE ORDER of bay_market_read and filled as
 * there. The first line has the m asks, the second the m bays, each line after them a guest's ticket, amount and m
 * bids. Commas part the fields, and every line ends in CR LF, the last one too; a bid may be empty, which is 0, and no
 * other field. Digits, commas, CR and LF are the only bytes. A field has at most ten digits, zeros in front included,
 * and fits its table's type. Whether values are in range, and whether tickets repeat, is the clearing's business. A
 * call takes at most BAY_MARKET_MAX_STACK_READ_CSV bytes of stack.
 *
 * Refusals in this order: 10 for another table length; then that of the first place of the text that has one, byte by
 * byte, the end being the last place. A field ends at the first byte that is no digit, or at the end. At one place goes
 * first 23, where a field ends that has more than ten digits or is too large for its table; then 2, at the comma after
 * the 40th ask and at the first byte of the 201st guest's line; then 22, at a byte that may not stand there, at the
 * comma that is one too many or the line end that comes too early, where an empty field ends that is no bid, and at the
 * end where a line or a line end is missing.
 */
uint8_t bay_market_read_csv(const uint8_t *text, size_t text_len,
                            uint16_t *amounts, size_t amounts_len,
                            uint32_t *tickets, size_t tickets_len,
                            uint32_t *asks, size_t asks_len,
                            uint16_t *bays, size_t bays_len,
                            uint32_t *bids, size_t bids_len,
                            uint16_t *n, uint16_t *m);

/*
 * Writes a market's shortest sheet, in which a map has a bit exactly where a bid is not 0, over the first *length
 * bytes of sheet, and leaves the rest. The market is lent as to bay_market_clear. BAY_MARKET_MAX_SHEET bytes are
 * enough for every market.
 *
 * Refusals in this order: 2, 5, 6 to 9 and 15 as in clearing; 14 where sheet_len is shorter than the sheet.
 */
uint8_t bay_market_write(const uint32_t *asks, size_t asks_len,
                         const uint16_t *bays, size_t bays_len,
                         const uint16_t *amounts, size_t amounts_len,
                         const uint32_t *tickets, size_t tickets_len,
                         const uint32_t *bids, size_t bids_len,
                         size_t width,
                         uint8_t *sheet, size_t sheet_len,
                         size_t *length);

/*
 * Places bids: fills a bid table from each guest's price and fall and from the cells of guests and stations. The table
 * is cleared as any other. n is guest_first_len and m is station_first_len; a cell has a first and a second
 * coordinate, 0 to 31 each. The walk between two cells, in tenths of a cell, is the greatest whole d with d times d at
 * most 100 times their squared distance. Guest i's bid at station j, both from 0, is bids[i * m + j]: its price less
 * its fall times the walk, or 0 where that is negative. A fall is in mills per kWh for each tenth of a cell.
 *
 * Refusals in this order: 2 for n or m; 5 where prices_len, falls_len or guest_second_len is not n, station_second_len
 * is not m or bids_len is not n times m; 16 for any coordinate above 31; 17 for any price or fall above 1,000,000.
 */
uint8_t bay_market_place_bids(const uint32_t *prices, size_t prices_len,
                              const uint32_t *falls, size_t falls_len,
                              const uint16_t *guest_first, size_t guest_first_len,
                              const uint16_t *guest_second, size_t guest_second_len,
                              const uint16_t *station_first, size_t station_first_len,
                              const uint16_t *station_second, size_t station_second_len,
                              uint32_t *bids, size_t bids_len);

/*
 * Joins two markets of the same stations, as of two gates, into one, which is cleared as any other: the asks and bays
 * of the first, and the guests of both, the first market's in front. The lent tables are exactly as long as the joined
 * market's: with n guests in both together and m stations, m asks and bays, n amounts and tickets, n times m bids, row
 * after row, m wide. In truthful rounds by one rule whoever holds a place in the joined market held it in its own, and
 * its charge at that station is no lower.
 *
 * Refusals in this order: 2, 5, 6 to 9 and 15 of the first market as in clearing, then those of the second; 20 where
 * the counts of stations, their asks or their bays differ; 2 where both together have over 200 guests; 21 where a
 * ticket is in both; 10 for a lent table of another length.
 */
uint8_t bay_market_join(const uint32_t *asks, size_t asks_len,
                        const uint16_t *bays, size_t bays_len,
                        const uint16_t *amounts, size_t amounts_len,
                        const uint32_t *tickets, size_t tickets_len,
                        const uint32_t *bids, size_t bids_len,
                        size_t width,
                        const uint32_t *asks2, size_t asks2_len,
                        const uint16_t *bays2, size_t bays2_len,
                        const uint16_t *amounts2, size_t amounts2_len,
                        const uint32_t *tickets2, size_t tickets2_len,
                        const uint32_t *bids2, size_t bids2_len,
                        size_t width2,
                        uint32_t *joined_asks, size_t joined_asks_len,
                        uint16_t *joined_bays, size_t joined_bays_len,
                        uint16_t *joined_amounts, size_t joined_amounts_len,
                        uint32_t *joined_tickets, size_t joined_tickets_len,
                        uint32_t *joined_bids, size_t joined_bids_len);

/*
 * Clears a market in a truthful round: no guest and no station gains by a false report. n is amounts_len and m is
 * asks_len; guest i's bid at station j, both from 0, is bids[i * width + j], and 0 is no bid. Result lists: for each
 * guest its station (0 for none) and its charge (0 for none), for each station the kWh sold and its payment. *cut is
 * the cut, per kWh, by the rule of that number.
 *
 * Refusals in this order: 18 where rule is neither 1 nor 2; 2 for n or m; 5 where bays_len or width is not m,
 * tickets_len is not n or bids_len is not n times m; 10 for a result list that is not n or m long; then 6 for any ask,
 * 7 for any bays, 8 for any amount, 9 for any bid out of range; 15 where two tickets are equal.
 */
uint8_t bay_market_clear(uint8_t rule,
                         const uint32_t *asks, size_t asks_len,
                         const uint16_t *bays, size_t bays_len,
                         const uint16_t *amounts, size_t amounts_len,
                         const uint32_t *tickets, size_t tickets_len,
                         const uint32_t *bids, size_t bids_len,
                         size_t width,
                         uint16_t *stations, size_t stations_len,
                         uint32_t *charges, size_t charges_len,
                         uint32_t *sold, size_t sold_len,
                         uint64_t *paid, size_t paid_len,
                         uint32_t *cut, uint64_t *margin);

/*
 * Clears a market by the efficient mechanism, for quiet days: whoever bay_market_clear seats is seated here too, and
 * others may be. Stations keep the guarantee that truth pays best; GUESTS LOSE IT: a false bid may pay. All candidacies
 * of all stations are taken by falling total, of equal ones the lower ticket first, then the lower station. A seated
 * guest's later ones are skipped. Where the station has a bay left the guest is seated; where it is full, the first
 * such guest's total is its floor, whoever is seated elsewhere later. A charge is the larger of cut times amount and
 * floor.
 *
 * Arguments, result lists and refusals are those of bay_market_clear. Only truthful rounds are posted.
 */
uint8_t bay_market_clear_efficient(uint8_t rule,
                                   const uint32_t *asks, size_t asks_len,
                                   const uint16_t *bays, size_t bays_len,
                                   const uint16_t *amounts, size_t amounts_len,
                                   const uint32_t *tickets, size_t tickets_len,
                                   const uint32_t *bids, size_t bids_len,
                                   size_t width,
                                   uint16_t *stations, size_t stations_len,
                                   uint32_t *charges, size_t charges_len,
                                   uint32_t *sold, size_t sold_len,
                                   uint64_t *paid, size_t paid_len,
                                   uint32_t *cut, uint64_t *margin);

/*
 * Tells each guest what decided the truthful round of that rule, the one of bay_market_clear; an efficient round has no
 * codes. codes[i * m + j] is the code of guest i at station j, both from 0 (enum bay_market_code): row after row as the
 * bids. A guest's outcome stands in three lists: a win has its station and its charge, as bay_market_clear gives them,
 * and reason 0; a loss has station 0, charge 0 and as its reason the highest code of the guest's row, 1 to 4.
 *
 * Refusals in this order: 18, 2 and 5 as in clearing; 10 where codes_len is not n times m or stations_len, charges_len
 * or reasons_len is not n; then 6 to 9 and 15 as in clearing.
 */
uint8_t bay_market_explain(uint8_t rule,
                           const uint32_t *asks, size_t asks_len,
                           const uint16_t *bays, size_t bays_len,
                           const uint16_t *amounts, size_t amounts_len,
                           const uint32_t *tickets, size_t tickets_len,
                           const uint32_t *bids, size_t bids_len,
                           size_t width,
                           uint8_t *codes, size_t codes_len,
                           uint16_t *stations, size_t stations_len,
                           uint32_t *charges, size_t charges_len,
                           uint8_t *reasons, size_t reasons_len);

/*
 * Tells what another row of bids would have done. In two truthful rounds by one rule, of the market as it is and of
 * the one with `row` in place of the guest's bids, *first_gain and *second_gain are the guest's gains: its worth per
 * kWh at the station where it is seated, times its amount, less its charge; 0 where it has no seat. A gain is NEGATIVE
 * where the guest pays more than the station is worth to it. The guest is named by its number, from 1; worths[j] is
 * what a kWh at station j, from 0, is worth to it, and row[j] its other bid there. Where its bids in the market are
 * its worths, the second gain is never larger than the first.
 *
 * changes gets a byte for each guest (enum bay_market_change): 1 where another guest has no seat in the first round
 * and one in the second, 2 the other way round, else 0, and 0 for the guest itself. Those others are never more than
 * the stations where the guest holds a place in one of the rounds alone. A call takes at most BAY_MARKET_MAX_STACK_TRY
 * bytes of stack.
 *
 * Refusals in this order: 18 where rule is neither 1 nor 2; 2, 5, 6 to 9 and 15 of the market as in clearing; 24 where
 * guest is 0 or above n; 5 where worths_len or row_len is not m; 10 where changes_len is not n; 9 for any worth, or
 * bid of the row, above 1,000,000.
 */
uint8_t bay_market_try(uint8_t rule,
                       const uint32_t *asks, size_t asks_len,
                       const uint16_t *bays, size_t bays_len,
                       const uint16_t *amounts, size_t amounts_len,
                       const uint32_t *tickets, size_t tickets_len,
                       const uint32_t *bids, size_t bids_len,
                       size_t width, uint32_t guest,
                       const uint32_t *worths, size_t worths_len,
                       const uint32_t *row, size_t row_len,
                       uint8_t *changes, size_t changes_len,
                       int64_t *first_gain, int64_t *second_gain);

/*
 * Gives a guest's price list in a truthful round: for each station, bars[j] is the least total, bid times amount, with
 * which the guest holds a place there, and prices[j] its charge there. Where the station is not open they are
 * BAY_MARKET_NO_BAR, which no total comes to, and 0. The guest is named by its number, from 1. Its own bids do not move
 * the list: whatever row it states, it holds a place exactly where its total reaches the bar, is seated where total
 * less price is greatest, at the lowest of equal stations, and is charged the price.
 *
 * Refusals in this order: 18 where rule is neither 1 nor 2; 2, 5, 6 to 9 and 15 of the market as in clearing; 24 where
 * guest is 0 or above n; 10 where bars_len or prices_len is not m.
 */
uint8_t bay_market_menu(uint8_t rule,
                        const uint32_t *asks, size_t asks_len,
                        const uint16_t *bays, size_t bays_len,
                        const uint16_t *amounts, size_t amounts_len,
                        const uint32_t *tickets, size_t tickets_len,
                        const uint32_t *bids, size_t bids_len,
                        size_t width, uint32_t guest,
                        uint32_t *bars, size_t bars_len,
                        uint32_t *prices, size_t prices_len);

/*
 * Gives the gain of each of many rows of bids: gains[r] is the second gain of bay_market_try with row r, whose m bids
 * stand from rows[r * m] on. Any number of rows may be lent, none among them. No row gains more than one that is the
 * worths. A row costs a few instructions for each station, and no clearing.
 *
 * Refusals in this order: 18 where rule is neither 1 nor 2; 2, 5, 6 to 9 and 15 of the market as in clearing; 24 where
 * guest is 0 or above n; 5 where worths_len is not m or rows_len no multiple of m; 10 where gains_len is not
 * rows_len / m; 9 for any worth, or bid of a row, above 1,000,000.
 */
uint8_t bay_market_gains(uint8_t rule,
                         const uint32_t *asks, size_t asks_len,
                         const uint16_t *bays, size_t bays_len,
                         const uint16_t *amounts, size_t amounts_len,
                         const uint32_t *tickets, size_t tickets_len,
                         const uint32_t *bids, size_t bids_len,
                         size_t width, uint32_t guest,
                         const uint32_t *worths, size_t worths_len,
                         const uint32_t *rows, size_t rows_len,
                         int64_t *gains, size_t gains_len);

/*
 * Clears a market as bay_market_clear does, in a truthful round by the rule of that number, and gives its places and
 * floors besides. places[i * m + j] is 1 where guest i holds a place at station j, both from 0, seated there or
 * elsewhere, and else 0: row after row as the bids. floors[j] is the total of the first candidate without a place at
 * station j, and 0 where every candidate has one or the station is not open. A seated guest's charge is the larger of
 * cut times amount and the floor of its station.
 *
 * Refusals in this order: 18, 2 and 5 as in clearing; 10 where stations_len or charges_len is not n, sold_len, paid_len
 * or floors_len is not m, or places_len is not n times m; then 6 to 9 and 15 as in clearing.
 */
uint8_t bay_market_clear_marked(uint8_t rule,
                                const uint32_t *asks, size_t asks_len,
                                const uint16_t *bays, size_t bays_len,
                                const uint16_t *amounts, size_t amounts_len,
                                const uint32_t *tickets, size_t tickets_len,
                                const uint32_t *bids, size_t bids_len,
                                size_t width,
                                uint16_t *stations, size_t stations_len,
                                uint32_t *charges, size_t charges_len,
                                uint32_t *sold, size_t sold_len,
                                uint64_t *paid, size_t paid_len,
                                uint8_t *places, size_t places_len,
                                uint32_t *floors, size_t floors_len,
                                uint32_t *cut, uint64_t *margin);

/*
 * Marks a clearing that is handed in: *correct is 1 exactly where stations, charges, sold, paid, places, floors, cut
 * and margin are all those that bay_market_clear_marked gives of the market by the rule of that number, and else 0. So
 * whatever that call gives is passed. A place of another value than 0 and 1 earns a 0, as any other wrong number does,
 * and is no refusal. Nothing that is handed in is changed.
 *
 * Refusals are those of bay_market_clear_marked, in the same order, 10 for the lists that are handed in; *correct is
 * then left as it was.
 */
uint8_t bay_market_mark(uint8_t rule,
                        const uint32_t *asks, size_t asks_len,
                        const uint16_t *bays, size_t bays_len,
                        const uint16_t *amounts, size_t amounts_len,
                        const uint32_t *tickets, size_t tickets_len,
                        const uint32_t *bids, size_t bids_len,
                        size_t width,
                        const uint16_t *stations, size_t stations_len,
                        const uint32_t *charges, size_t charges_len,
                        const uint32_t *sold, size_t sold_len,
                        const uint64_t *paid, size_t paid_len,
                        const uint8_t *places, size_t places_len,
                        const uint32_t *floors, size_t floors_len,
                        uint32_t cut, uint64_t margin,
                        uint8_t *correct);

/*
 * Clears a market as bay_market_clear does, in a truthful round by the rule of that number, and posts it to the ledger
 * as the given round of a desk, 0 to 7: charges to the guests' accounts, sales and payments to the stations', the
 * margin to *house, the round to last[desk]. The list last has each desk's last round, and is 8 long. Other desks'
 * rounds stay, as do accounts beyond the market's guests and stations. An empty ledger is all zeros; each desk's
 * round 1 is its first.
 *
 * Refusals in this order: 18, 2, 5, 6 to 9 and 15 as in clearing; 13 for a ledger over 200 guests or 40 stations
 * or smaller than the market, or where last_len is not 8; 25 for a desk above 7; 11 where round is not last[desk] + 1,
 * and always after 4,294,967,295; 12 where any account or kWh sum is above 10^15 before the posting or would be after
 * it.
 */
uint8_t bay_market_post(uint8_t rule,
                        const uint32_t *asks, size_t asks_len,
                        const uint16_t *bays, size_t bays_len,
                        const uint16_t *amounts, size_t amounts_len,
                        const uint32_t *tickets, size_t tickets_len,
                        const uint32_t *bids, size_t bids_len,
                        size_t width, uint8_t desk, uint32_t round,
                        uint64_t *guests, size_t guests_len,
                        struct bay_market_station_account *stations, size_t stations_len,
                        uint64_t *house,
                        uint32_t *last, size_t last_len);

/*
 * The same over structs. What is only read is lent by pointers, and the two counts say how long each list is; what is
 * written has its room in the struct, enough for every market within the limits. Counts beyond them are refused before
 * a list is read or written. What each call does, and its refusals, stand above.
 */

/* A market's tables, lent for reading. */
struct bay_market_tables {
    size_t guests;           /* n */
    size_t stations;         /* m */
    const uint32_t *asks;    /* m */
    const uint16_t *bays;    /* m */
    const uint16_t *amounts; /* n */
    const uint32_t *tickets; /* n */
    const uint32_t *bids;    /* n times m: guest i's bid at station j, both from 0, is bids[i * stations + j] */
};

/* A market that has its tables itself, some 34 kB. Readers fill it; of bay_market_join_tables, see there. */
struct bay_market_market {
    uint16_t guests;
    uint16_t stations;
    uint32_t asks[BAY_MARKET_MAX_STATIONS];
    uint16_t bays[BAY_MARKET_MAX_STATIONS];
    uint16_t amounts[BAY_MARKET_MAX_GUESTS];
    uint32_t tickets[BAY_MARKET_MAX_GUESTS];
    uint32_t bids[BAY_MARKET_MAX_BIDS];
};

/* Prices, falls and cells, lent for reading. */
struct bay_market_places {
    size_t guests;                  /* n */
    size_t stations;                /* m */
    const uint32_t *prices;         /* n */
    const uint32_t *falls;          /* n */
    const uint16_t *guest_first;    /* n */
    const uint16_t *guest_second;   /* n */
    const uint16_t *station_first;  /* m */
    const uint16_t *station_second; /* m */
};

/* What a clearing gives: lists for the market's guests and stations, in the first places of each. */
struct bay_market_results {
    uint32_t cut;
    uint64_t margin;
    uint16_t stations[BAY_MARKET_MAX_GUESTS];
    uint32_t charges[BAY_MARKET_MAX_GUESTS];
    uint32_t sold[BAY_MARKET_MAX_STATIONS];
    uint64_t paid[BAY_MARKET_MAX_STATIONS];
};

/* A clearing with its places and floors. */
struct bay_market_submission {
    struct bay_market_results clearing;
    uint8_t places[BAY_MARKET_MAX_BIDS];       /* of guest i at station j: places[i * m + j] */
    uint32_t floors[BAY_MARKET_MAX_STATIONS];
};

/* What guests are told. */
struct bay_market_explanation {
    uint8_t codes[BAY_MARKET_MAX_BIDS];        /* of guest i at station j: codes[i * m + j] */
    uint16_t stations[BAY_MARKET_MAX_GUESTS];
    uint32_t charges[BAY_MARKET_MAX_GUESTS];
    uint8_t reasons[BAY_MARKET_MAX_GUESTS];
};

/* What another row would have done. */
struct bay_market_tried {
    int64_t first_gain;
    int64_t second_gain;
    uint8_t changes[BAY_MARKET_MAX_GUESTS];
};

/* A guest's price list. */
struct bay_market_price_list {
    uint32_t bars[BAY_MARKET_MAX_STATIONS];
    uint32_t prices[BAY_MARKET_MAX_STATIONS];
};

/* A ledger for every market. One that is all zeros is empty. */
struct bay_market_ledger {
    uint64_t guests[BAY_MARKET_MAX_GUESTS];
    struct bay_market_station_account stations[BAY_MARKET_MAX_STATIONS];
    uint64_t house;
    uint32_t last[BAY_MARKET_MAX_DESKS];
};

/* A market's own tables, lent for reading as long as it stays. */
static inline struct bay_market_tables bay_market_tables_of(const struct bay_market_market *market)
{
    const struct bay_market_tables tables = {market->guests, market->stations, market->asks, market->bays,
                                             market->amounts, market->tickets, market->bids};
    return tables;
}

/*
 * bay_market_join_tables wants the joined market's counts in `joined` before the call, and answers 10 to others: the
 * guests of both and the stations of one.
 */

/* scripts/exports writes what follows from crates/bay_market/src */
static inline uint8_t bay_market_read_tables(const uint8_t *sheet, size_t sheet_len, struct bay_market_market *market)
{
    return bay_market_read(sheet, sheet_len,
                           market->amounts, BAY_MARKET_MAX_GUESTS,
                           market->tickets, BAY_MARKET_MAX_GUESTS,
                           market->asks, BAY_MARKET_MAX_STATIONS,
                           market->bays, BAY_MARKET_MAX_STATIONS,
                           market->bids, BAY_MARKET_MAX_BIDS,
                           &market->guests, &market->stations);
}

static inline uint8_t bay_market_read_csv_tables(const uint8_t *text, size_t text_len, struct bay_market_market *market)
{
    return bay_market_read_csv(text, text_len,
                               market->amounts, BAY_MARKET_MAX_GUESTS,
                               market->tickets, BAY_MARKET_MAX_GUESTS,
                               market->asks, BAY_MARKET_MAX_STATIONS,
                               market->bays, BAY_MARKET_MAX_STATIONS,
                               market->bids, BAY_MARKET_MAX_BIDS,
                               &market->guests, &market->stations);
}

static inline uint8_t bay_market_write_tables(const struct bay_market_tables *tables, uint8_t *sheet, size_t sheet_len,
                                              size_t *length)
{
    return bay_market_write(tables->asks, tables->stations,
                            tables->bays, tables->stations,
                            tables->amounts, tables->guests,
                            tables->tickets, tables->guests,
                            tables->bids, tables->guests * tables->stations,
                            tables->stations,
                            sheet, sheet_len,
                            length);
}

static inline uint8_t bay_market_place_bids_tables(const struct bay_market_places *places, uint32_t *bids)
{
    return bay_market_place_bids(places->prices, places->guests,
                                 places->falls, places->guests,
                                 places->guest_first, places->guests,
                                 places->guest_second, places->guests,
                                 places->station_first, places->stations,
                                 places->station_second, places->stations,
                                 bids, places->guests * places->stations);
}

static inline uint8_t bay_market_join_tables(const struct bay_market_tables *tables,
                                             const struct bay_market_tables *tables2, struct bay_market_market *joined)
{
    return bay_market_join(tables->asks, tables->stations,
                           tables->bays, tables->stations,
                           tables->amounts, tables->guests,
                           tables->tickets, tables->guests,
                           tables->bids, tables->guests * tables->stations,
                           tables->stations,
                           tables2->asks, tables2->stations,
                           tables2->bays, tables2->stations,
                           tables2->amounts, tables2->guests,
                           tables2->tickets, tables2->guests,
                           tables2->bids, tables2->guests * tables2->stations,
                           tables2->stations,
                           joined->asks, joined->stations,
                           joined->bays, joined->stations,
                           joined->amounts, joined->guests,
                           joined->tickets, joined->guests,
                           joined->bids, joined->guests * tables->stations);
}

static inline uint8_t bay_market_clear_tables(uint8_t rule, const struct bay_market_tables *tables,
                                              struct bay_market_results *results)
{
    return bay_market_clear(rule,
                            tables->asks, tables->stations,
                            tables->bays, tables->stations,
                            tables->amounts, tables->guests,
                            tables->tickets, tables->guests,
                            tables->bids, tables->guests * tables->stations,
                            tables->stations,
                            results->stations, tables->guests,
                            results->charges, tables->guests,
                            results->sold, tables->stations,
                            results->paid, tables->stations,
                            &results->cut, &results->margin);
}

static inline uint8_t bay_market_clear_efficient_tables(uint8_t rule, const struct bay_market_tables *tables,
                                                        struct bay_market_results *results)
{
    return bay_market_clear_efficient(rule,
                                      tables->asks, tables->stations,
                                      tables->bays, tables->stations,
                                      tables->amounts, tables->guests,
                                      tables->tickets, tables->guests,
                                      tables->bids, tables->guests * tables->stations,
                                      tables->stations,
                                      results->stations, tables->guests,
                                      results->charges, tables->guests,
                                      results->sold, tables->stations,
                                      results->paid, tables->stations,
                                      &results->cut, &results->margin);
}

static inline uint8_t bay_market_explain_tables(uint8_t rule, const struct bay_market_tables *tables,
                                                struct bay_market_explanation *explanation)
{
    return bay_market_explain(rule,
                              tables->asks, tables->stations,
                              tables->bays, tables->stations,
                              tables->amounts, tables->guests,
                              tables->tickets, tables->guests,
                              tables->bids, tables->guests * tables->stations,
                              tables->stations,
                              explanation->codes, tables->guests * tables->stations,
                              explanation->stations, tables->guests,
                              explanation->charges, tables->guests,
                              explanation->reasons, tables->guests);
}

static inline uint8_t bay_market_try_tables(uint8_t rule, const struct bay_market_tables *tables, uint32_t guest,
                                            const uint32_t *worths, const uint32_t *row, struct bay_market_tried *tried)
{
    return bay_market_try(rule,
                          tables->asks, tables->stations,
                          tables->bays, tables->stations,
                          tables->amounts, tables->guests,
                          tables->tickets, tables->guests,
                          tables->bids, tables->guests * tables->stations,
                          tables->stations, guest,
                          worths, tables->stations,
                          row, tables->stations,
                          tried->changes, tables->guests,
                          &tried->first_gain, &tried->second_gain);
}

static inline uint8_t bay_market_menu_tables(uint8_t rule, const struct bay_market_tables *tables, uint32_t guest,
                                             struct bay_market_price_list *price_list)
{
    return bay_market_menu(rule,
                           tables->asks, tables->stations,
                           tables->bays, tables->stations,
                           tables->amounts, tables->guests,
                           tables->tickets, tables->guests,
                           tables->bids, tables->guests * tables->stations,
                           tables->stations, guest,
                           price_list->bars, tables->stations,
                           price_list->prices, tables->stations);
}

static inline uint8_t bay_market_gains_tables(uint8_t rule, const struct bay_market_tables *tables, uint32_t guest,
                                              const uint32_t *worths, const uint32_t *rows, size_t rows_len,
                                              int64_t *gains, size_t gains_len)
{
    return bay_market_gains(rule,
                            tables->asks, tables->stations,
                            tables->bays, tables->stations,
                            tables->amounts, tables->guests,
                            tables->tickets, tables->guests,
                            tables->bids, tables->guests * tables->stations,
                            tables->stations, guest,
                            worths, tables->stations,
                            rows, rows_len,
                            gains, gains_len);
}

static inline uint8_t bay_market_clear_marked_tables(uint8_t rule, const struct bay_market_tables *tables,
                                                     struct bay_market_submission *submission)
{
    return bay_market_clear_marked(rule,
                                   tables->asks, tables->stations,
                                   tables->bays, tables->stations,
                                   tables->amounts, tables->guests,
                                   tables->tickets, tables->guests,
                                   tables->bids, tables->guests * tables->stations,
                                   tables->stations,
                                   submission->clearing.stations, tables->guests,
                                   submission->clearing.charges, tables->guests,
                                   submission->clearing.sold, tables->stations,
                                   submission->clearing.paid, tables->stations,
                                   submission->places, tables->guests * tables->stations,
                                   submission->floors, tables->stations,
                                   &submission->clearing.cut, &submission->clearing.margin);
}

static inline uint8_t bay_market_mark_tables(uint8_t rule, const struct bay_market_tables *tables,
                                             const struct bay_market_submission *submission, uint8_t *correct)
{
    return bay_market_mark(rule,
                           tables->asks, tables->stations,
                           tables->bays, tables->stations,
                           tables->amounts, tables->guests,
                           tables->tickets, tables->guests,
                           tables->bids, tables->guests * tables->stations,
                           tables->stations,
                           submission->clearing.stations, tables->guests,
                           submission->clearing.charges, tables->guests,
                           submission->clearing.sold, tables->stations,
                           submission->clearing.paid, tables->stations,
                           submission->places, tables->guests * tables->stations,
                           submission->floors, tables->stations,
                           submission->clearing.cut, submission->clearing.margin,
                           correct);
}

static inline uint8_t bay_market_post_tables(uint8_t rule, const struct bay_market_tables *tables, uint8_t desk,
                                             uint32_t round, struct bay_market_ledger *ledger)
{
    return bay_market_post(rule,
                           tables->asks, tables->stations,
                           tables->bays, tables->stations,
                           tables->amounts, tables->guests,
                           tables->tickets, tables->guests,
                           tables->bids, tables->guests * tables->stations,
                           tables->stations, desk, round,
                           ledger->guests, BAY_MARKET_MAX_GUESTS,
                           ledger->stations, BAY_MARKET_MAX_STATIONS,
                           &ledger->house,
                           ledger->last, BAY_MARKET_MAX_DESKS);
}
/* end of what scripts/exports writes */

#ifdef __cplusplus
}
#endif

#endif
