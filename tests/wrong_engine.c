/*
 * A wrong engine: the real one, of which BAY_MARKET_FAULT spoils one thing. The tests must find every fault.
 *
 *   FUNCTION PART PLACE ANSWER   after an accepted or refused call a bit of a lent part is turned over: of its first or
 *                                last element, or of the byte before or after it
 *   FUNCTION answer              an accepted call answers 5, a refused one 0
 *   FUNCTION number              a refused call answers another number
 *   CLEARING bid                 guests are charged what they bid; a clearing is clear or clear_efficient
 *   CLEARING ask                 stations are paid what they ask
 *   CLEARING|post higher         of equal totals the higher ticket stands first
 *   clear_efficient own          none: the efficient clearing that has the next faults, without one
 *   clear_efficient truthful     the clearing is the truthful one
 *   clear_efficient rising       candidacies stand by rising total
 *   clear_efficient far          of equal totals of one guest the higher station stands first
 *   clear_efficient later        a seated guest's later candidacies are taken too: it moves, and keeps its bays
 *   clear_efficient skipped      a seated guest's later candidacy at a full station sets the floor too
 *   clear_efficient last         the last unseated guest that finds a station full sets its floor, not the first
 *   clear_efficient unseated     only a guest that is seated nowhere in the end sets a floor
 *   clear_efficient full         a full station seats one guest more
 *   clear_efficient no-floor     charges are cut times amount, whatever the floor
 *   clear_efficient untouched    the result lists stay as they were
 *   explain own                  none: what spoils the codes, reasons and charges, without a fault
 *   explain cut-first            3 goes before 2: a bid below the cut where the station is not open
 *   explain open-first           2 goes before 1: no bid where the station is not open
 *   explain bid-late             3 goes before 1: no bid where the station is open
 *   explain at-cut               a candidate that is outbid with a bid at the cut is below it
 *   explain open                 a station that asks the cut is open
 *   explain seated               a seated guest's other places are outbid
 *   explain excused              a seated guest is outbid nowhere
 *   explain bay                  of the guests that are outbid at a station the first by number is shown a place
 *   explain lowest               a loss has the lowest code of its row
 *   explain first-code           a loss has the first code of its row
 *   explain told                 a win has the highest code of its row as its reason
 *   explain charge               a seated guest's charge is that of another place it holds
 *   explain no-floor             a charge is cut times amount, whatever the floor
 *   explain quiet                stations and charges are those of the efficient round
 *   explain transposed           the codes stand station after station
 *   explain untouched            the lists stay as they were
 *   explain kept                 the outcome of a loss is not written but for its reason
 *   explain list-late            10 comes after 6
 *   explain list-early           10 goes before 5
 *   explain LIST WAY taken       a list that alone is too long or too short is taken
 *   FUNCTION equal               equal tickets are accepted; of a market, as the next two
 *   FUNCTION repeat-early        15 goes before 9
 *   FUNCTION repeat-late         15 comes after 13 or 14, the next refusal of a posting or a writing
 *   FUNCTION first               what clears or posts does so by rule 1, whatever number it is given
 *   FUNCTION any                 a number of no rule is taken as rule 1
 *   FUNCTION second              rule 1 is taken as rule 2
 *   FUNCTION counts              2 for the stations' count goes before 18
 *   post desk-early              25 goes before 13
 *   post desk-late               25 comes after 11, which goes by desk 0 where the desk is too high
 *   post desk-one                every desk's rounds are counted as desk 0's
 *   post desk-modulo             desk 8 is taken as desk 0, 9 as 1 and so on
 *   post desk-next               a posted round moves the next desk's count too
 *   post desk-kept               the desk's last round stays as it was
 *   post last WAY taken          a list of last rounds that is too long or too short is taken
 *   read place                   a ticket is read from the row's first bytes, where the amount stands
 *   read untouched               the tickets stay as they were
 *   read second                  every second market that is read has another first ask
 *   read empty                   a bid of 0 with a set bit is taken, as a bid of 1
 *   read empty-late              19 comes after every other fault of the sheet
 *   write order                  a ticket is written highest byte first
 *   write past                   a byte past the sheet is turned over
 *   write early                  14 for an output that no sheet fits into goes before the market's own faults
 *   write fit                    14 where the output is as long as the sheet
 *   write empty                  a set bit for the last guest's bid of 0 at the last station
 *   write second                 every second sheet has another last byte
 *   read_csv own                 none: the reader of comma-separated markets that has the next faults, without one
 *   read_csv eleven              more than ten digits are taken where the value fits
 *   read_csv wide                a value too large for 16 bits is taken, and loses its higher bits
 *   read_csv narrow              the greatest value of a table's width is too large
 *   read_csv zeros               a 0 in front of other digits is malformed
 *   read_csv empty-field         an empty field is 0, wherever it stands
 *   read_csv empty-bid           an empty bid is malformed
 *   read_csv kept                an empty bid leaves the table's place as it was
 *   read_csv extra               a comma at the end of a full line is taken
 *   read_csv short               a guest's line may end after its amount: its other bids are 0
 *   read_csv lf                  LF alone ends a line
 *   read_csv cr                  CR alone ends a line
 *   read_csv last                the last line may end with the text
 *   read_csv blank               spaces before a field are skipped
 *   read_csv nul                 the text ends at a byte of 0
 *   read_csv nobody              a text with no guests is malformed
 *   read_csv comma-41            22 at the comma after the 40th ask
 *   read_csv late-41             2 at the end of a line of more than 40 asks, and not before
 *   read_csv count-first         2 goes before 23 at the comma after the 40th ask
 *   read_csv shape-first         22 goes before 23 at one place
 *   read_csv shape-count         22 goes before 2 at the comma after the 40th ask
 *   read_csv guest-201           22 at the first byte of guest line 201
 *   read_csv late-201            2 at the end of guest line 201, and not before
 *   read_csv swapped             the amount stands before the ticket
 *   read_csv transposed          the bids stand station after station
 *   read_csv list-late           10 comes after the faults of the text
 *   read_csv LIST WAY taken      a table that alone is too long or too short is taken
 *   place_bids walk              from corner to corner of the grid the walk is a tenth too short
 *   place_bids added             the fall times the walk is added to the price
 *   place_bids wrapped           a bid that would be negative wraps round
 *   place_bids transposed        the bids stand station after station
 *   place_bids grid              a coordinate one beyond the grid is taken
 *   place_bids stated            a price or fall one beyond its limit is taken
 *   place_bids price-early       17 goes before 16
 *   place_bids LIST WAY taken    a list that alone is too long or too short is taken
 *   join front                   the second market's guests stand in front
 *   join last                    the bids of the second market's last guest are those of the first's last
 *   join ticket                  a ticket in both is taken
 *   join bays                    bays that differ are taken
 *   join asks                    asks that differ are taken
 *   join crowd                   201 guests are taken
 *   join ticket-early            21 goes before 2
 *   join list-early              10 goes before 21
 *   join LIST WAY taken          a table that alone is too long or too short is taken
 *   try own                      none: what tells of another row, with the next faults, without one
 *   try exchanged                the second gain stands first
 *   try turned                   1 and 2 are exchanged
 *   try itself                   the guest itself is listed too
 *   try moved                    a guest that moves to another station becomes seated
 *   try shifted                  the list is one off: a guest's change is the next one's
 *   try many                     of more others than there are stations all become unseated
 *   try larger                   where the worths are the guest's bids, the second gain is one more than the first
 *   try kept                     where nothing changes the list stays as it was
 *   try untouched                the list stays as it was
 *   try unsigned                 a negative gain wraps round at 32 bits
 *   try clamped                  a negative gain is 0
 *   try by-bids                  the first gain is by the guest's bids in the market, not by its worths
 *   try by-row                   the second gain is by the other row, not by the worths
 *   try price                    a gain is by the kWh: the worth is not multiplied by the amount
 *   try charge                   the second gain has the first round's charge
 *   try free                     a gain has no charge taken off
 *   try unseated                 a guest with no seat gains its worth at station 1
 *   try rules                    the second round is by the other rule
 *   try quiet                    both rounds are efficient ones
 *   try next                     the other row is laid over the next guest's
 *   try ticket                   the guest has the highest ticket in the second round
 *   try zero                     guest number 0 is taken, as guest 1
 *   try over                     guest number n + 1 is taken, as guest n
 *   try worth                    a worth one beyond its limit is taken
 *   try bid                      a bid of the row one beyond its limit is taken
 *   try guest-early              24 goes before 15
 *   try guest-late               24 comes after 5
 *   try list-early               10 goes before 5
 *   try price-early              9 of the row goes before 10
 *   try LIST WAY taken           a list that alone is too long or too short is taken
 *   menu, gains                  what wrong_menus.h lists
 *   clear_marked own             none: what gives places and floors, with the next faults, without one
 *   clear_marked seated          a seated guest's other places are not held
 *   clear_marked excused         a seated guest holds a place wherever it is a candidate
 *   clear_marked bay             the first candidate without a place is shown one
 *   clear_marked tied            whoever's total is that of the last guest that has a place is shown one
 *   clear_marked two             a place that is held is 2
 *   clear_marked inverted        0 and 1 are exchanged among the places
 *   clear_marked transposed      the places stand station after station
 *   clear_marked closed          a station that is not open has a floor
 *   clear_marked above           a floor is one more
 *   clear_marked below           a floor is one less
 *   clear_marked holder          the floor is the total of the last guest that has a place
 *   clear_marked second-out      the floor is the total of the second candidate without a place
 *   clear_marked full            where there are as many candidates as bays the floor is the last one's total
 *   clear_marked unseated        only a guest with no seat sets the floor
 *   clear_marked price           the floor is a bid, not a total
 *   clear_marked cut             where every candidate has a place the floor is the cut
 *   clear_marked no-floor        every floor is 0
 *   clear_marked shifted         the floors are one off
 *   clear_marked quiet           the results are those of the efficient round
 *   clear_marked untouched       places and floors stay as they were
 *   clear_marked kept            a place that is not held stays as it was
 *   clear_marked kept-floor      a floor of 0 is not written
 *   clear_marked list-late       10 comes after 6; of a mark too, as the next two
 *   clear_marked list-early      10 goes before 5
 *   clear_marked LIST WAY taken  a list that alone is too long or too short is taken
 *   mark own                     none: what marks, with the next faults, without one
 *   mark THING skipped           one of the eight things is not looked at
 *   mark THING low               it is looked at by the lower half of its bits
 *   mark LIST PLACE unseen       its first or last number is not looked at
 *   mark LIST sum                it is looked at by its sum
 *   mark LIST parity             it is looked at by the bits that are set an odd number of times
 *   mark truthy                  a place of any other value than 0 passes for 1
 *   mark low-bit                 a place is looked at by its lowest bit
 *   mark closed                  the floor of a station that is not open is not looked at
 *   mark elsewhere               a seated guest's other places are not looked at
 *   mark unseated                the charge of a guest with no seat is not looked at
 *   mark either                  what is right by the other rule is passed too
 *   mark turned                  yes and no are exchanged
 *   mark always                  all is passed
 *   mark never                   nothing is passed
 *   mark place-refused           a place of another value than 0 and 1 is refused with 10
 *   mark yes-two                 a yes is 2
 *   mark cleared                 a refused call writes a no
 *   mark kept                    a no is not written
 *   mark mended                  what is handed in is put right
 */
#include "bay_market.h"

#include <stdio.h>
#include <stdlib.h>
#include <string.h>

/* The real functions, renamed in the object file; parameters, arguments and parts of what is lent. */
#include "exports.h"
#define REAL(name) real_##name
/* the lent market with other tickets */
#define MARKET(others) asks, asks_len, bays, bays_len, amounts, amounts_len, others, tickets_len, bids, bids_len, width

struct part {
    const char *name;
    const void *pointer;
    size_t bytes, size;
};

#define LIST(list) {#list, list, list##_len * sizeof *list, sizeof *list}
#define NUMBER(number) {#number, number, sizeof *number, sizeof *number}

/* The fault's words; the first is this function's name, or there is none. */
static int fault(const char *function, char words[4][16])
{
    const char *text = getenv("BAY_MARKET_FAULT");
    memset(words, 0, 4 * 16);
    return text != NULL && sscanf(text, "%15s %15s %15s %15s", words[0], words[1], words[2], words[3]) >= 2
           && strcmp(words[0], function) == 0;
}

static void turn(const struct part *part, const char *place)
{
    uint8_t *bytes = (uint8_t *)(uintptr_t)part->pointer;

    if (strcmp(place, "before") == 0) {
        bytes[-1] ^= 1;
    } else if (strcmp(place, "after") == 0) {
        bytes[part->bytes] ^= 1;
    } else if (part->bytes > 0) {
        bytes[strcmp(place, "first") == 0 ? 0 : part->bytes - part->size] ^= 1;
    }
}

static uint8_t spoil(const char *function, uint8_t answer, const struct part *parts, size_t count)
{
    char words[4][16];

    if (!fault(function, words)) {
        return answer;
    }
    if (strcmp(words[1], "answer") == 0) {
        return answer == 0 ? 5 : 0;
    }
    if (strcmp(words[1], "number") == 0) {
        return answer == 0 ? 0 : (uint8_t)(answer % BAY_MARKET_PRICE_OR_FALL_OUT_OF_RANGE + 1);
    }
    for (size_t i = 0; i < count; i++) {
        if (strcmp(words[1], parts[i].name) == 0 && strcmp(words[3], answer == 0 ? "accepted" : "refused") == 0) {
            turn(&parts[i], words[2]);
        }
    }
    return answer;
}

#define SPOIL(function, answer, parts) spoil(function, answer, parts, sizeof parts / sizeof *parts)

static int repeat(const uint32_t *tickets, size_t count)
{
    for (size_t k = 0; k < count; k++) {
        for (size_t i = 0; i < k; i++) {
            if (tickets[i] == tickets[k]) {
                return 1;
            }
        }
    }
    return 0;
}

/* The tickets that the real function gets: turned round for `higher`, and others for `equal` where two are equal. */
static const uint32_t *others(const char *function, const uint32_t *tickets, size_t count)
{
    static uint32_t others[2 * BAY_MARKET_MAX_GUESTS];
    char words[4][16];

    if (!fault(function, words) || count > sizeof others / sizeof *others) {
        return tickets;
    }
    int higher = strcmp(words[1], "higher") == 0;
    if (!higher && !(strcmp(words[1], "equal") == 0 && repeat(tickets, count))) {
        return tickets;
    }
    for (size_t i = 0; i < count; i++) {
        others[i] = higher ? ~tickets[i] : (uint32_t)i;
    }
    return others;
}

/* The answer with 15 out of its place; `later` is the refusal that comes after it, where that holds too. */
static uint8_t out_of_place(const char *function, uint8_t answer, const uint32_t *tickets, size_t count, uint8_t later)
{
    char words[4][16];

    if (!fault(function, words)) {
        return answer;
    }
    if (strcmp(words[1], "repeat-early") == 0 && answer == BAY_MARKET_BID_OUT_OF_RANGE && repeat(tickets, count)) {
        return BAY_MARKET_TICKETS_REPEAT;
    }
    if (strcmp(words[1], "repeat-late") == 0 && answer == BAY_MARKET_TICKETS_REPEAT && later != 0) {
        return later;
    }
    return answer;
}

/* The row after the one at a place of a sheet. */
static size_t next_row(const uint8_t *sheet, size_t at, size_t m)
{
    size_t bids = at + 2 + 4 + (m + 7) / 8, set = 0;

    for (size_t map = at + 2 + 4; map < bids; map++) {
        set += (size_t)__builtin_popcount(sheet[map]);
    }
    return bids + 4 * set;
}

/* A copy of a sheet that is refused with 19, in which each bid of 0 with a set bit is 1. */
static uint8_t *filled_in(const uint8_t *sheet, size_t sheet_len)
{
    uint8_t *copy = malloc(sheet_len);
    size_t m = sheet[2], at = 4 + 6 * m, head = 2 + 4 + (m + 7) / 8;

    if (copy == NULL) {
        abort();
    }
    memcpy(copy, sheet, sheet_len);
    for (size_t i = 0; i < sheet[0] && at + head <= sheet_len; i++) {
        size_t next = next_row(sheet, at, m);
        for (size_t bid = at + head; bid < next && bid + 4 <= sheet_len; bid += 4) {
            copy[bid] |= memcmp(sheet + bid, "\0\0\0", 4) == 0;
        }
        at = next;
    }
    return copy;
}

/* The answer to a sheet with a bid of 0, by the way that such a bid is met. */
static uint8_t without_empty(const char *way, uint8_t answer, READ_PARAMETERS)
{
    uint8_t *copy = filled_in(sheet, sheet_len);

    if (strcmp(way, "empty") == 0) {
        answer = REAL(bay_market_read)(copy, sheet_len, amounts, amounts_len, tickets, tickets_len, asks, asks_len,
                                       bays, bays_len, bids, bids_len, n, m);
    } else if (strcmp(way, "empty-late") == 0) {
        static uint32_t others[BAY_MARKET_MAX_GUESTS * BAY_MARKET_MAX_STATIONS], other_tickets[BAY_MARKET_MAX_GUESTS];
        uint32_t other_asks[BAY_MARKET_MAX_STATIONS];
        uint16_t other_amounts[BAY_MARKET_MAX_GUESTS], other_bays[BAY_MARKET_MAX_STATIONS], counts[2];
        uint8_t later = REAL(bay_market_read)(copy, sheet_len, other_amounts, amounts_len, other_tickets, tickets_len,
                                              other_asks, asks_len, other_bays, bays_len, others, bids_len,
                                              &counts[0], &counts[1]);
        answer = later != 0 ? later : answer;
    }
    free(copy);
    return answer;
}

uint8_t bay_market_read(READ_PARAMETERS)
{
    const struct part parts[] = {READ_PARTS};
    static int taken = 0;
    uint32_t before[BAY_MARKET_MAX_GUESTS];
    char words[4][16];

    if (tickets_len == BAY_MARKET_MAX_GUESTS) {
        memcpy(before, tickets, sizeof before);
    }
    uint8_t answer = REAL(bay_market_read)(READ_ARGUMENTS);
    if (answer == BAY_MARKET_EMPTY_BID && fault("read", words)) {
        answer = without_empty(words[1], answer, READ_ARGUMENTS);
    }
    if (answer == 0 && fault("read", words)) {
        taken++;
        if (strcmp(words[1], "second") == 0 && taken % 2 == 0) {
            asks[0] ^= 1;
        } else if (strcmp(words[1], "untouched") == 0) {
            memcpy(tickets, before, sizeof before);
        } else if (strcmp(words[1], "place") == 0) {
            size_t at = 4 + 6 * (size_t)*m;
            for (size_t i = 0; i < *n; i++, at = next_row(sheet, at, *m)) {
                memcpy(&tickets[i], sheet + at, sizeof *tickets);
            }
        }
    }
    return SPOIL("read", answer, parts);
}

/* Turns the bytes of each ticket of a sheet round. */
static void turn_tickets(uint8_t *sheet, size_t m, size_t n)
{
    size_t at = 4 + 6 * m;

    for (size_t i = 0; i < n; i++, at = next_row(sheet, at, m)) {
        for (size_t k = 0; k < 2; k++) {
            uint8_t byte = sheet[at + 2 + k];
            sheet[at + 2 + k] = sheet[at + 5 - k];
            sheet[at + 5 - k] = byte;
        }
    }
}

/* Sets the bit of the last guest's bid of 0 at the last station, where there is one and the output has room for it. */
static void set_empty(size_t m, size_t n, const uint32_t *bids, uint8_t *sheet, size_t sheet_len, size_t *length)
{
    size_t set = 0;

    if (n == 0 || bids[n * m - 1] != 0 || sheet_len - *length < 4) {
        return;
    }
    for (size_t j = 0; j < m; j++) {
        set += bids[(n - 1) * m + j] != 0;
    }
    sheet[*length - 4 * set - 1] |= (uint8_t)(1 << (m - 1) % 8);
    memset(sheet + *length, 0, 4);
    *length += 4;
}

uint8_t bay_market_write(WRITE_PARAMETERS)
{
    const struct part parts[] = {WRITE_PARTS};
    const uint32_t *seen = others("write", tickets, tickets_len);
    static uint8_t apart[BAY_MARKET_MAX_SHEET];
    static int written = 0;
    char words[4][16];
    uint8_t answer;

    if (!fault("write", words)) {
        words[1][0] = '\0';
    }
    if (strcmp(words[1], "early") == 0 && sheet_len < 4) {
        return BAY_MARKET_OUTPUT_TOO_SHORT;
    }
    if (strcmp(words[1], "fit") == 0) {
        size_t needed = 0;
        answer = REAL(bay_market_write)(MARKET(seen), apart, sizeof apart, &needed);
        if (answer == 0 && needed == sheet_len) {
            return BAY_MARKET_OUTPUT_TOO_SHORT;
        }
    }
    answer = REAL(bay_market_write)(MARKET(seen), sheet, sheet_len, length);
    answer = out_of_place("write", answer, tickets, tickets_len, sheet_len < 4 ? BAY_MARKET_OUTPUT_TOO_SHORT : 0);
    if (answer == 0) {
        written++;
        if (strcmp(words[1], "past") == 0 && *length < sheet_len) {
            sheet[*length] ^= 1;
        } else if (strcmp(words[1], "empty") == 0) {
            set_empty(asks_len, amounts_len, bids, sheet, sheet_len, length);
        } else if (strcmp(words[1], "order") == 0) {
            turn_tickets(sheet, asks_len, amounts_len);
        } else if (strcmp(words[1], "second") == 0 && written % 2 == 0) {
            sheet[*length - 1] ^= 1;
        }
    }
    return SPOIL("write", answer, parts);
}

/* Lets each guest pay its own bid, or each station get its own ask; what it makes goes to the house. */
static void own_price(const char *whose, const uint32_t *asks, size_t asks_len, const uint16_t *amounts,
                      size_t amounts_len, const uint32_t *bids, const uint16_t *stations, uint32_t *charges,
                      const uint32_t *sold, uint64_t *paid, uint64_t *margin)
{
    if (strcmp(whose, "bid") == 0) {
        for (size_t i = 0; i < amounts_len; i++) {
            if (stations[i] != 0) {
                uint32_t bid = bids[i * asks_len + stations[i] - 1] * amounts[i];
                *margin += bid - charges[i];
                charges[i] = bid;
            }
        }
    }
    if (strcmp(whose, "ask") == 0) {
        for (size_t j = 0; j < asks_len; j++) {
            uint64_t ask = (uint64_t)asks[j] * sold[j];
            *margin += paid[j] - ask;
            paid[j] = ask;
        }
    }
}

/* The rule that a call is given, or with a fault the one that it would then clear by. */
static uint8_t other_rule(const char *function, uint8_t rule, size_t asks_len)
{
    char words[4][16];

    if (!fault(function, words)) {
        return rule;
    }
    if (strcmp(words[1], "first") == 0 || (strcmp(words[1], "any") == 0 && rule != BAY_MARKET_RULE_TWO_THIRDS)) {
        return BAY_MARKET_RULE_MEDIAN;
    }
    if (strcmp(words[1], "second") == 0 && rule == BAY_MARKET_RULE_MEDIAN) {
        return BAY_MARKET_RULE_TWO_THIRDS;
    }
    if (strcmp(words[1], "counts") == 0 && (asks_len == 0 || asks_len > BAY_MARKET_MAX_STATIONS)) {
        return BAY_MARKET_RULE_MEDIAN;
    }
    return rule;
}

uint8_t bay_market_clear(CLEAR_PARAMETERS)
{
    const struct part parts[] = {CLEAR_PARTS};
    const uint32_t *seen = others("clear", tickets, tickets_len);
    char words[4][16];
    uint8_t answer = REAL(bay_market_clear)(other_rule("clear", rule, asks_len), MARKET(seen), RESULT_ARGUMENTS);

    answer = out_of_place("clear", answer, tickets, tickets_len, 0);
    if (answer == 0 && fault("clear", words)) {
        own_price(words[1], asks, asks_len, amounts, amounts_len, bids, stations, charges, sold, paid, margin);
    }
    return SPOIL("clear", answer, parts);
}

/* A guest, from 0, as a candidate at a station, from 0. */
struct candidacy {
    uint32_t total, ticket;
    size_t guest, station;
};

static int rising, far;

/* By falling total, lower ticket, lower station, but for `rising` and `far`. */
static int by_place(const void *one, const void *two)
{
    const struct candidacy *x = one, *y = two;

    if (x->total != y->total) {
        return (x->total > y->total) != rising ? -1 : 1;
    }
    if (x->ticket != y->ticket) {
        return x->ticket < y->ticket ? -1 : 1;
    }
    return (x->station < y->station) != far ? -1 : 1;
}

/* All candidacies in order; how many there are. */
static size_t gather(struct candidacy *all, const uint32_t *asks, size_t m, const uint16_t *amounts, size_t n,
                     const uint32_t *tickets, const uint32_t *bids, uint32_t cut)
{
    size_t count = 0;

    for (size_t i = 0; i < n; i++) {
        for (size_t j = 0; j < m; j++) {
            if (asks[j] < cut && bids[i * m + j] >= cut) {
                all[count++] = (struct candidacy){bids[i * m + j] * amounts[i], tickets[i], i, j};
            }
        }
    }
    qsort(all, count, sizeof *all, by_place);
    return count;
}

/* Takes the candidacies in order, with a fault: seats the guests and sets the floors. */
static void take(const char *wrong, const struct candidacy *all, size_t count, const uint16_t *bays, uint16_t *stations,
                 uint32_t *floors)
{
    const int later = strcmp(wrong, "later") == 0, skipped = strcmp(wrong, "skipped") == 0;
    const int last = strcmp(wrong, "last") == 0;
    uint32_t served[BAY_MARKET_MAX_STATIONS] = {0};

    for (const struct candidacy *next = all; next < all + count; next++) {
        uint32_t most = bays[next->station] + (uint32_t)(strcmp(wrong, "full") == 0);
        int bay_left = served[next->station] < most;
        if (stations[next->guest] != 0 && !later && !(skipped && !bay_left)) {
            continue;
        }
        if (bay_left) {
            stations[next->guest] = (uint16_t)(next->station + 1);
            served[next->station]++;
        } else if (floors[next->station] == 0 || last) {
            floors[next->station] = next->total;
        }
    }
}

/* Lets only guests that are seated nowhere set the floors. */
static void only_unseated(const struct candidacy *all, size_t count, const uint16_t *stations, uint32_t *floors)
{
    memset(floors, 0, BAY_MARKET_MAX_STATIONS * sizeof *floors);
    for (const struct candidacy *next = all; next < all + count; next++) {
        if (stations[next->guest] == 0 && floors[next->station] == 0) {
            floors[next->station] = next->total;
        }
    }
}

/* Clears an accepted market, whose cut is known, by the efficient mechanism, with a fault. */
static void clear_wrong(const char *wrong, const uint32_t *asks, size_t m, const uint16_t *bays,
                        const uint16_t *amounts, size_t n, const uint32_t *tickets, const uint32_t *bids,
                        uint16_t *stations, uint32_t *charges, uint32_t *sold, uint64_t *paid, uint32_t cut,
                        uint64_t *margin)
{
    static struct candidacy all[BAY_MARKET_MAX_BIDS];
    uint32_t floors[BAY_MARKET_MAX_STATIONS] = {0};

    rising = strcmp(wrong, "rising") == 0;
    far = strcmp(wrong, "far") == 0;
    size_t count = gather(all, asks, m, amounts, n, tickets, bids, cut);
    for (size_t i = 0; i < n; i++) {
        stations[i] = 0;
        charges[i] = 0;
    }
    for (size_t j = 0; j < m; j++) {
        sold[j] = 0;
    }
    take(wrong, all, count, bays, stations, floors);
    if (strcmp(wrong, "unseated") == 0) {
        only_unseated(all, count, stations, floors);
    }
    *margin = 0;
    for (size_t i = 0; i < n; i++) {
        if (stations[i] != 0) {
            uint32_t least = cut * amounts[i], floor = strcmp(wrong, "no-floor") == 0 ? 0 : floors[stations[i] - 1];
            charges[i] = floor > least ? floor : least;
            sold[stations[i] - 1] += amounts[i];
            *margin += charges[i] - least;
        }
    }
    for (size_t j = 0; j < m; j++) {
        paid[j] = (uint64_t)cut * sold[j];
    }
}

/* The faults of `clear_wrong`. */
static int is_own(const char *wrong)
{
    static const char *const faults[] = {"own", "rising", "far", "later", "skipped", "last", "unseated", "full",
                                         "no-floor"};

    for (size_t i = 0; i < sizeof faults / sizeof *faults; i++) {
        if (strcmp(wrong, faults[i]) == 0) {
            return 1;
        }
    }
    return 0;
}

/* An accepted call whose result lists stay as they were. */
static uint8_t untouched(uint8_t rule, MARKET_PARAMETERS, RESULT_PARAMETERS)
{
    uint16_t seats[BAY_MARKET_MAX_GUESTS];
    uint32_t charged[BAY_MARKET_MAX_GUESTS], kwh[BAY_MARKET_MAX_STATIONS];
    uint64_t earned[BAY_MARKET_MAX_STATIONS];

    (void)stations, (void)charges, (void)sold, (void)paid;
    return REAL(bay_market_clear_efficient)(rule, MARKET(tickets), seats, stations_len, charged, charges_len, kwh,
                                            sold_len, earned, paid_len, cut, margin);
}

uint8_t bay_market_clear_efficient(CLEAR_EFFICIENT_PARAMETERS)
{
    const struct part parts[] = {CLEAR_PARTS};
    const uint32_t *seen = others("clear_efficient", tickets, tickets_len);
    char words[4][16];
    uint8_t answer;

    if (!fault("clear_efficient", words)) {
        words[1][0] = '\0';
    }
    if (strcmp(words[1], "untouched") == 0) {
        return untouched(rule, MARKET(tickets), RESULT_ARGUMENTS);
    }
    rule = other_rule("clear_efficient", rule, asks_len);
    answer = strcmp(words[1], "truthful") == 0 ? REAL(bay_market_clear)(rule, MARKET(seen), RESULT_ARGUMENTS)
             : REAL(bay_market_clear_efficient)(rule, MARKET(seen), RESULT_ARGUMENTS);
    answer = out_of_place("clear_efficient", answer, tickets, tickets_len, 0);
    if (answer == 0 && is_own(words[1])) {
        clear_wrong(words[1], asks, asks_len, bays, amounts, amounts_len, tickets, bids, stations, charges, sold, paid,
                    *cut, margin);
    } else if (answer == 0) {
        own_price(words[1], asks, asks_len, amounts, amounts_len, bids, stations, charges, sold, paid, margin);
    }
    return SPOIL("clear_efficient", answer, parts);
}

static int above16(const uint16_t *list, size_t count, uint16_t most)
{
    for (size_t i = 0; i < count; i++) {
        if (list[i] > most) {
            return 1;
        }
    }
    return 0;
}

static int above32(const uint32_t *list, size_t count, uint32_t most)
{
    for (size_t i = 0; i < count; i++) {
        if (list[i] > most) {
            return 1;
        }
    }
    return 0;
}

/* A list's length, and the one that it should have. */
struct fit {
    const char *name;
    size_t length, wanted;
};

/* The fault's list, and no other, is too long or too short, as the fault says. */
static int taken(char words[4][16], const struct fit *lists, size_t count)
{
    int taken = 0;

    for (size_t i = 0; i < count; i++) {
        const char *way = lists[i].length > lists[i].wanted ? "long" : "short";
        if (lists[i].length == lists[i].wanted) {
            continue;
        }
        if (strcmp(words[1], lists[i].name) != 0 || strcmp(words[2], way) != 0 || strcmp(words[3], "taken") != 0) {
            return 0;
        }
        taken = 1;
    }
    return taken;
}

/* The code of a guest at a station, with a fault; `code` is the right one. */
static uint8_t wrong_code(const char *wrong, uint8_t code, uint32_t bid, uint32_t ask, uint32_t cut, int seated_there,
                          int seated)
{
    if (strcmp(wrong, "cut-first") == 0 && code == BAY_MARKET_NOT_OPEN && bid < cut) {
        return BAY_MARKET_BELOW_CUT;
    }
    if (strcmp(wrong, "open-first") == 0 && code == BAY_MARKET_NO_BID && ask >= cut) {
        return BAY_MARKET_NOT_OPEN;
    }
    if (strcmp(wrong, "bid-late") == 0 && code == BAY_MARKET_NO_BID && ask < cut) {
        return BAY_MARKET_BELOW_CUT;
    }
    if (strcmp(wrong, "at-cut") == 0 && code == BAY_MARKET_OUTBID && bid == cut) {
        return BAY_MARKET_BELOW_CUT;
    }
    if (strcmp(wrong, "open") == 0 && code == BAY_MARKET_NOT_OPEN && ask == cut) {
        return bid < cut ? BAY_MARKET_BELOW_CUT : BAY_MARKET_OUTBID;
    }
    if (strcmp(wrong, "seated") == 0 && code == BAY_MARKET_HELD && !seated_there) {
        return BAY_MARKET_OUTBID;
    }
    if (strcmp(wrong, "excused") == 0 && code == BAY_MARKET_OUTBID && seated) {
        return BAY_MARKET_HELD;
    }
    return code;
}

/* Shows the first guest that is outbid at each station a place. */
static void one_bay_more(uint8_t *codes, size_t n, size_t m)
{
    for (size_t j = 0; j < m; j++) {
        for (size_t i = 0; i < n; i++) {
            if (codes[i * m + j] == BAY_MARKET_OUTBID) {
                codes[i * m + j] = BAY_MARKET_HELD;
                break;
            }
        }
    }
}

/* The charge of a holder at a station, from 0: the floor is the greatest total of those that are outbid there. */
static uint32_t charge_at(size_t j, uint32_t least, const uint8_t *codes, size_t m, const uint16_t *amounts, size_t n,
                          const uint32_t *bids)
{
    uint32_t charge = least;

    for (size_t i = 0; i < n; i++) {
        uint32_t total = bids[i * m + j] * amounts[i];
        if (codes[i * m + j] == BAY_MARKET_OUTBID && total > charge) {
            charge = total;
        }
    }
    return charge;
}

/* The reason of a guest with this row of codes that wins or loses, with a fault. */
static uint8_t wrong_reason(const char *wrong, int wins, const uint8_t *row, size_t m)
{
    uint8_t lowest = row[0], highest = row[0];

    for (size_t j = 1; j < m; j++) {
        lowest = row[j] < lowest ? row[j] : lowest;
        highest = row[j] > highest ? row[j] : highest;
    }
    if (wins) {
        return strcmp(wrong, "told") == 0 ? highest : 0;
    }
    return strcmp(wrong, "lowest") == 0 ? lowest : strcmp(wrong, "first-code") == 0 ? row[0] : highest;
}

/* Spoils what an accepted market's guests are told: charges, codes, and the reasons with them. */
static void tell_wrong(const char *wrong, uint8_t rule, MARKET_PARAMETERS, TOLD_PARAMETERS)
{
    static uint8_t turned[BAY_MARKET_MAX_BIDS];
    const size_t n = amounts_len, m = asks_len;
    uint16_t seats[BAY_MARKET_MAX_GUESTS];
    uint32_t charged[BAY_MARKET_MAX_GUESTS], sold[BAY_MARKET_MAX_STATIONS], cut;
    uint64_t paid[BAY_MARKET_MAX_STATIONS], margin;

    (void)codes_len, (void)reasons_len;
    REAL(bay_market_clear)(rule, MARKET(tickets), seats, n, charged, n, sold, m, paid, m, &cut, &margin);
    if (strcmp(wrong, "quiet") == 0) {
        REAL(bay_market_clear_efficient)(rule, MARKET(tickets), stations, stations_len, charges, charges_len, sold, m,
                                         paid, m, &cut, &margin);
    }
    for (size_t i = 0; i < n; i++) {
        if (seats[i] != 0 && strcmp(wrong, "no-floor") == 0) {
            charges[i] = cut * amounts[i];
        }
        for (size_t j = 0; seats[i] != 0 && strcmp(wrong, "charge") == 0 && j < m; j++) {
            if (codes[i * m + j] == BAY_MARKET_HELD && j + 1 != seats[i]) {
                charges[i] = charge_at(j, cut * amounts[i], codes, m, amounts, n, bids);
            }
        }
    }
    for (size_t i = 0; i < n; i++) {
        for (size_t j = 0; j < m; j++) {
            codes[i * m + j] = wrong_code(wrong, codes[i * m + j], bids[i * m + j], asks[j], cut, seats[i] == j + 1,
                                          seats[i] != 0);
        }
    }
    if (strcmp(wrong, "bay") == 0) {
        one_bay_more(codes, n, m);
    }
    for (size_t i = 0; i < n; i++) {
        reasons[i] = wrong_reason(wrong, stations[i] != 0, codes + i * m, m);
    }
    if (strcmp(wrong, "transposed") == 0) {
        memcpy(turned, codes, n * m);
        for (size_t i = 0; i < n * m; i++) {
            codes[i % m * n + i / m] = turned[i];
        }
    }
}

/* An accepted call whose lists stay as they were, or with `kept` those of stations and charges where a guest loses. */
static uint8_t not_told(int kept, uint8_t rule, MARKET_PARAMETERS, TOLD_PARAMETERS)
{
    static uint8_t codes_apart[BAY_MARKET_MAX_BIDS], reasons_apart[BAY_MARKET_MAX_GUESTS];
    uint16_t seats[BAY_MARKET_MAX_GUESTS];
    uint32_t charged[BAY_MARKET_MAX_GUESTS];
    uint8_t answer = REAL(bay_market_explain)(rule, MARKET(tickets), kept ? codes : codes_apart, codes_len, seats,
                                              stations_len, charged, charges_len, kept ? reasons : reasons_apart,
                                              reasons_len);

    for (size_t i = 0; answer == 0 && kept && i < amounts_len; i++) {
        if (seats[i] != 0) {
            stations[i] = seats[i];
            charges[i] = charged[i];
        }
    }
    return answer;
}

/* The answer with 10 out of its place or not given. */
static uint8_t list_out_of_place(char words[4][16], uint8_t answer, const uint32_t *asks, size_t m,
                                 const struct fit *lists, size_t count)
{
    int fits = 1;

    for (size_t i = 0; i < count; i++) {
        fits = fits && lists[i].length == lists[i].wanted;
    }
    if (answer == BAY_MARKET_LENT_LENGTHS && taken(words, lists, count)) {
        return BAY_MARKET_ACCEPTED;
    }
    if (strcmp(words[1], "list-late") == 0 && answer == BAY_MARKET_LENT_LENGTHS
        && above32(asks, m, BAY_MARKET_MAX_PRICE)) {
        return BAY_MARKET_ASK_OUT_OF_RANGE;
    }
    if (strcmp(words[1], "list-early") == 0 && answer == BAY_MARKET_LENGTHS_DIFFER && !fits) {
        return BAY_MARKET_LENT_LENGTHS;
    }
    return answer;
}

uint8_t bay_market_explain(EXPLAIN_PARAMETERS)
{
    const size_t n = amounts_len, m = asks_len;
    const struct part parts[] = {EXPLAIN_PARTS};
    const struct fit lists[] = {{"codes", codes_len, n * m}, {"stations", stations_len, n}, {"charges", charges_len, n},
                                {"reasons", reasons_len, n}};
    const uint32_t *seen = others("explain", tickets, tickets_len);
    char words[4][16];
    uint8_t answer;

    rule = other_rule("explain", rule, asks_len);
    if (!fault("explain", words)) {
        return REAL(bay_market_explain)(rule, MARKET(tickets), TOLD_ARGUMENTS);
    }
    if (strcmp(words[1], "untouched") == 0 || strcmp(words[1], "kept") == 0) {
        return not_told(strcmp(words[1], "kept") == 0, rule, MARKET(tickets), TOLD_ARGUMENTS);
    }
    answer = REAL(bay_market_explain)(rule, MARKET(seen), TOLD_ARGUMENTS);
    answer = out_of_place("explain", answer, tickets, tickets_len, 0);
    if (answer == 0 && seen == tickets) {
        tell_wrong(words[1], rule, MARKET(tickets), TOLD_ARGUMENTS);
    }
    answer = list_out_of_place(words, answer, asks, m, lists, sizeof lists / sizeof *lists);
    return SPOIL("explain", answer, parts);
}

/* The desk that the real engine is given. */
static uint8_t other_desk(uint8_t desk)
{
    char words[4][16];

    if (!fault("post", words)) {
        return desk;
    }
    if (strcmp(words[1], "desk-one") == 0 && desk < BAY_MARKET_MAX_DESKS) {
        return 0;
    }
    return strcmp(words[1], "desk-modulo") == 0 ? desk % BAY_MARKET_MAX_DESKS : desk;
}

/* The answer with 25 out of its place. */
static uint8_t desk_out_of_place(const char *wrong, uint8_t answer, uint8_t desk, uint32_t round, const uint32_t *last)
{
    if (strcmp(wrong, "desk-early") == 0 && answer == BAY_MARKET_BOOK_SIZE && desk >= BAY_MARKET_MAX_DESKS) {
        return BAY_MARKET_DESK_OUT_OF_RANGE;
    }
    if (strcmp(wrong, "desk-late") == 0 && answer == BAY_MARKET_DESK_OUT_OF_RANGE && round != last[0] + 1) {
        return BAY_MARKET_ROUND_OUT_OF_TURN;
    }
    return answer;
}

uint8_t bay_market_post(POST_PARAMETERS)
{
    const struct part parts[] = {POST_PARTS};
    const struct fit lists[] = {{"last", last_len, BAY_MARKET_MAX_DESKS}};
    const uint32_t *seen = others("post", tickets, tickets_len);
    char words[4][16];
    uint8_t answer = REAL(bay_market_post)(other_rule("post", rule, asks_len), MARKET(seen), other_desk(desk), round,
                                           guests, guests_len, stations, stations_len, house, last, last_len);

    answer = out_of_place("post", answer, tickets, tickets_len, guests_len < amounts_len ? BAY_MARKET_BOOK_SIZE : 0);
    if (fault("post", words)) {
        answer = desk_out_of_place(words[1], answer, desk, round, last);
        if (answer == BAY_MARKET_BOOK_SIZE && taken(words, lists, 1)) {
            answer = BAY_MARKET_ACCEPTED;
        } else if (answer == BAY_MARKET_ACCEPTED && strcmp(words[1], "desk-next") == 0) {
            last[(desk + 1) % BAY_MARKET_MAX_DESKS]++;
        } else if (answer == BAY_MARKET_ACCEPTED && strcmp(words[1], "desk-kept") == 0) {
            last[desk]--;
        }
    }
    return SPOIL("post", answer, parts);
}

/* The greatest whole d with d times d at most 100 times q, which is counted once; one beyond the grid too. */
static uint32_t walk(uint32_t q)
{
    static uint32_t walks[2 * (BAY_MARKET_MAX_CELL + 1) * (BAY_MARKET_MAX_CELL + 1) + 1];

    while ((walks[q] + 1) * (walks[q] + 1) <= 100 * q) {
        walks[q]++;
    }
    return walks[q];
}

/* Writes the bids, with a fault. */
static void place_wrong(const char *wrong, const uint32_t *prices, const uint32_t *falls, const uint16_t *guest_first,
                        const uint16_t *guest_second, size_t n, const uint16_t *station_first,
                        const uint16_t *station_second, size_t m, uint32_t *bids)
{
    for (size_t i = 0; i < n; i++) {
        for (size_t j = 0; j < m; j++) {
            int first = guest_first[i] - station_first[j], second = guest_second[i] - station_second[j];
            uint32_t q = (uint32_t)(first * first + second * second);
            int corners = q == 2 * BAY_MARKET_MAX_CELL * BAY_MARKET_MAX_CELL;
            uint32_t lost = falls[i] * (walk(q) - (strcmp(wrong, "walk") == 0 && corners));
            uint32_t bid = lost < prices[i] || strcmp(wrong, "wrapped") == 0 ? prices[i] - lost : 0;
            bids[strcmp(wrong, "transposed") == 0 ? j * n + i : i * m + j] = strcmp(wrong, "added") == 0
                ? prices[i] + lost : bid;
        }
    }
}

/* The answer of a call whose lengths fit, with a fault of the cells' or the prices' limits, or with 17 before 16. */
static uint8_t judged(const char *wrong, uint8_t answer, PLACES_PARAMETERS)
{
    const int early = strcmp(wrong, "price-early") == 0;
    const uint16_t cell = BAY_MARKET_MAX_CELL + (strcmp(wrong, "grid") == 0);
    const uint32_t price = BAY_MARKET_MAX_PRICE + (strcmp(wrong, "stated") == 0);

    if (answer != BAY_MARKET_CELL_OFF_GRID && answer != BAY_MARKET_PRICE_OR_FALL_OUT_OF_RANGE) {
        return answer;
    }
    int off = above16(guest_first, guest_first_len, cell) || above16(guest_second, guest_second_len, cell)
              || above16(station_first, station_first_len, cell) || above16(station_second, station_second_len, cell);
    int over = above32(prices, prices_len, price) || above32(falls, falls_len, price);
    return off && !(early && over) ? BAY_MARKET_CELL_OFF_GRID
           : over ? BAY_MARKET_PRICE_OR_FALL_OUT_OF_RANGE : BAY_MARKET_ACCEPTED;
}

uint8_t bay_market_place_bids(PLACE_BIDS_PARAMETERS)
{
    const size_t n = guest_first_len, m = station_first_len;
    const struct part parts[] = {PLACE_BIDS_PARTS};
    const struct fit lists[] = {{"prices", prices_len, n}, {"falls", falls_len, n}, {"bids", bids_len, n * m},
                                {"guest_second", guest_second_len, n}, {"station_second", station_second_len, m}};
    char words[4][16];
    uint8_t answer = REAL(bay_market_place_bids)(PLACE_BIDS_ARGUMENTS);

    if (!fault("place_bids", words)) {
        return answer;
    }
    if (answer == BAY_MARKET_LENGTHS_DIFFER && taken(words, lists, sizeof lists / sizeof *lists)) {
        return BAY_MARKET_ACCEPTED;
    }
    answer = judged(words[1], answer, PLACES_ARGUMENTS);
    if (answer == BAY_MARKET_ACCEPTED) {
        place_wrong(words[1], prices, falls, guest_first, guest_second, n, station_first, station_second, m, bids);
    }
    return SPOIL("place_bids", answer, parts);
}

/* A list and another one after it, as far as a table goes that begins at `to`. */
static void put(void *to, size_t room, const void *one, size_t first, const void *other, size_t second, size_t size)
{
    size_t front = first < room ? first : room, back = second < room - front ? second : room - front;

    memcpy(to, one, front * size);
    memcpy((uint8_t *)to + front * size, other, back * size);
}

/* The answer to markets that are both accepted, with a fault, in the order of document 02. */
static uint8_t paired(const char *wrong, int same, size_t n, int met, int fits)
{
    if (!same) {
        return BAY_MARKET_STATIONS_DIFFER;
    }
    if (met && strcmp(wrong, "ticket-early") == 0) {
        return BAY_MARKET_TICKET_IN_BOTH;
    }
    if (n > BAY_MARKET_MAX_GUESTS + (size_t)(strcmp(wrong, "crowd") == 0)) {
        return BAY_MARKET_COUNTS_OUT_OF_RANGE;
    }
    if (!fits && strcmp(wrong, "list-early") == 0) {
        return BAY_MARKET_LENT_LENGTHS;
    }
    return met ? BAY_MARKET_TICKET_IN_BOTH : fits ? BAY_MARKET_ACCEPTED : BAY_MARKET_LENT_LENGTHS;
}

uint8_t bay_market_join(JOIN_PARAMETERS)
{
    const size_t n = amounts_len + amounts2_len, m = asks_len;
    const struct part parts[] = {JOIN_PARTS};
    const struct fit lists[] = {{"joined_asks", joined_asks_len, m}, {"joined_bays", joined_bays_len, m},
                                {"joined_amounts", joined_amounts_len, n}, {"joined_tickets", joined_tickets_len, n},
                                {"joined_bids", joined_bids_len, n * m}};
    const int asks_same = m == asks2_len && memcmp(asks, asks2, m * sizeof *asks) == 0;
    const int bays_same = bays_len == bays2_len && memcmp(bays, bays2, bays_len * sizeof *bays) == 0;
    const int fits = joined_asks_len == m && joined_bays_len == m && joined_amounts_len == n && joined_tickets_len == n
                     && joined_bids_len == n * m;
    const int counts = amounts_len <= BAY_MARKET_MAX_GUESTS && amounts2_len <= BAY_MARKET_MAX_GUESTS && m > 0
                       && m <= BAY_MARKET_MAX_STATIONS && asks2_len > 0 && asks2_len <= BAY_MARKET_MAX_STATIONS;
    uint32_t both[2 * BAY_MARKET_MAX_GUESTS];
    char words[4][16];
    uint8_t answer = REAL(bay_market_join)(JOIN_ARGUMENTS);

    if (!fault("join", words)) {
        return answer;
    }
    if (answer == BAY_MARKET_LENT_LENGTHS && taken(words, lists, sizeof lists / sizeof *lists)) {
        return BAY_MARKET_ACCEPTED;
    }
    if (answer >= BAY_MARKET_STATIONS_DIFFER || (answer == BAY_MARKET_COUNTS_OUT_OF_RANGE && counts)) {
        int same = (asks_same || (m == asks2_len && strcmp(words[1], "asks") == 0))
                   && (bays_same || strcmp(words[1], "bays") == 0);
        put(both, n, tickets, tickets_len, tickets2, tickets2_len, sizeof *both);
        answer = paired(words[1], same, n, repeat(both, n) && strcmp(words[1], "ticket") != 0, fits);
    }
    if (answer == BAY_MARKET_ACCEPTED) {
        int front = strcmp(words[1], "front") == 0;
        put(joined_asks, joined_asks_len, asks, asks_len, asks, 0, sizeof *asks);
        put(joined_bays, joined_bays_len, bays, bays_len, bays, 0, sizeof *bays);
        put(joined_amounts, joined_amounts_len, front ? amounts2 : amounts, front ? amounts2_len : amounts_len,
            front ? amounts : amounts2, front ? amounts_len : amounts2_len, sizeof *amounts);
        put(joined_tickets, joined_tickets_len, front ? tickets2 : tickets, front ? tickets2_len : tickets_len,
            front ? tickets : tickets2, front ? tickets_len : tickets2_len, sizeof *tickets);
        put(joined_bids, joined_bids_len, front ? bids2 : bids, front ? bids2_len : bids_len, front ? bids : bids2,
            front ? bids_len : bids2_len, sizeof *bids);
        if (strcmp(words[1], "last") == 0 && amounts_len > 0 && amounts2_len > 0) {
            memcpy(joined_bids + (n - 1) * m, bids + (amounts_len - 1) * m, m * sizeof *bids);
        }
    }
    return SPOIL("join", answer, parts);
}

/* A comma-separated market as it is read; a mark for each bid that is empty. */
struct csv {
    const uint8_t *text;
    size_t len, at, n, m;
    const char *wrong;
    uint32_t asks[BAY_MARKET_MAX_STATIONS], tickets[BAY_MARKET_MAX_GUESTS], bids[BAY_MARKET_MAX_BIDS];
    uint16_t bays[BAY_MARKET_MAX_STATIONS], amounts[BAY_MARKET_MAX_GUESTS];
    uint8_t empty[BAY_MARKET_MAX_BIDS];
};

static int has(const struct csv *csv, const char *wrong)
{
    return strcmp(csv->wrong, wrong) == 0;
}

static int at_byte(const struct csv *csv, uint8_t byte)
{
    return csv->at < csv->len && csv->text[csv->at] == byte;
}

/* Passes a run of digits; their number, or one beyond every table. */
static uint64_t digits(struct csv *csv)
{
    uint64_t value = 0;

    while (has(csv, "blank") && at_byte(csv, ' ')) {
        csv->at++;
    }
    for (; csv->at < csv->len && csv->text[csv->at] >= '0' && csv->text[csv->at] <= '9'; csv->at++) {
        value = value > UINT32_MAX ? value : 10 * value + (uint64_t)(csv->text[csv->at] - '0');
    }
    return value;
}

/* Keeps a field's value: of a line from 0, by its place from 0. */
static void keep(struct csv *csv, size_t line, size_t field, uint32_t value, int empty)
{
    size_t guest = line - 2, swapped = has(csv, "swapped");

    if (line == 0 && field < BAY_MARKET_MAX_STATIONS) {
        csv->asks[field] = value;
    } else if (line == 1) {
        csv->bays[field] = (uint16_t)value;
    } else if (line > 1 && guest < BAY_MARKET_MAX_GUESTS && field < 2) {
        if (field == swapped) {
            csv->tickets[guest] = value;
        } else {
            csv->amounts[guest] = (uint16_t)value;
        }
    } else if (line > 1 && guest < BAY_MARKET_MAX_GUESTS) {
        csv->bids[guest * csv->m + field - 2] = value;
        csv->empty[guest * csv->m + field - 2] = (uint8_t)empty;
    }
}

/* Passes the end of a line, after its last field; whether there is one. */
static int line_ends(struct csv *csv)
{
    if (csv->at == csv->len && has(csv, "last")) {
        return 1;
    }
    if (at_byte(csv, '\n') && has(csv, "lf")) {
        csv->at++;
        return 1;
    }
    if (!at_byte(csv, '\r')) {
        return 0;
    }
    csv->at++;
    if (!at_byte(csv, '\n')) {
        return has(csv, "cr");
    }
    csv->at++;
    return 1;
}

/* The answer to a field that ends here, which is number `count` of its line, from 1. */
static uint8_t field_answer(const struct csv *csv, size_t line, size_t count, size_t length, uint64_t value, int zero)
{
    const size_t due = line == 0 ? 0 : line == 1 ? csv->m : csv->m + 2;
    const int bid = line > 1 && count > 2, comma = at_byte(csv, ','), half = line == 1 || (line > 1 && count == 2);
    const uint64_t greatest = half && !has(csv, "wide") ? UINT16_MAX : UINT32_MAX;
    const int large = (length > 10 && !has(csv, "eleven")) || value > greatest - (uint64_t)has(csv, "narrow");
    const int over = line == 0 && comma && count == BAY_MARKET_MAX_STATIONS && !has(csv, "late-41");
    const int ends = at_byte(csv, '\r') || (at_byte(csv, '\n') && has(csv, "lf"))
                     || (csv->at == csv->len && has(csv, "last"));
    const int early = ends && count < due && !(has(csv, "short") && line > 1 && count >= 2);
    const int empty = length == 0 && !has(csv, "empty-field") && (!bid || has(csv, "empty-bid"));
    const int shape = empty || (!comma && !ends) || (due != 0 && comma && count == due) || early
                      || (zero && length > 1 && has(csv, "zeros"));

    if (over && has(csv, "count-first")) {
        return BAY_MARKET_COUNTS_OUT_OF_RANGE;
    }
    if (shape && (has(csv, "shape-first") || (over && !large && has(csv, "shape-count")))) {
        return BAY_MARKET_MALFORMED_TEXT;
    }
    if (large) {
        return BAY_MARKET_FIELD_TOO_LARGE;
    }
    if (over) {
        return has(csv, "comma-41") ? BAY_MARKET_MALFORMED_TEXT : BAY_MARKET_COUNTS_OUT_OF_RANGE;
    }
    return shape ? BAY_MARKET_MALFORMED_TEXT : BAY_MARKET_ACCEPTED;
}

/* Reads a line; the answer, and in *count how many fields it has. */
static uint8_t csv_line(struct csv *csv, size_t line, size_t *count)
{
    for (*count = 1;; ++*count) {
        const size_t from = csv->at;
        const uint64_t value = digits(csv);
        const size_t length = csv->at - from;
        const int zero = length > 0 && csv->text[from] == '0';
        uint8_t answer;

        if (has(csv, "extra") && line > 0 && *count == (line == 1 ? csv->m : csv->m + 2) && at_byte(csv, ',')
            && csv->at + 1 < csv->len && csv->text[csv->at + 1] == '\r') {
            csv->at++;
        }
        answer = field_answer(csv, line, *count, length, value, zero);
        if (answer != BAY_MARKET_ACCEPTED) {
            return answer;
        }
        keep(csv, line, *count - 1, (uint32_t)value, length == 0);
        if (!at_byte(csv, ',')) {
            break;
        }
        csv->at++;
    }
    for (size_t field = *count; line > 1 && field < csv->m + 2; field++) {
        keep(csv, line, field, 0, 0);
    }
    return line_ends(csv) ? BAY_MARKET_ACCEPTED : BAY_MARKET_MALFORMED_TEXT;
}

/* Reads a text, with a fault; the answer. */
static uint8_t read_text(struct csv *csv)
{
    size_t count;
    uint8_t answer = csv_line(csv, 0, &csv->m);

    if (answer == BAY_MARKET_ACCEPTED && csv->m > BAY_MARKET_MAX_STATIONS) {
        answer = BAY_MARKET_COUNTS_OUT_OF_RANGE;
    }
    if (answer == BAY_MARKET_ACCEPTED) {
        answer = csv_line(csv, 1, &count);
    }
    for (csv->n = 0; answer == BAY_MARKET_ACCEPTED && csv->at < csv->len; csv->n++) {
        if (csv->n == BAY_MARKET_MAX_GUESTS && !has(csv, "late-201")) {
            return has(csv, "guest-201") ? BAY_MARKET_MALFORMED_TEXT : BAY_MARKET_COUNTS_OUT_OF_RANGE;
        }
        answer = csv_line(csv, 2 + csv->n, &count);
        if (answer == BAY_MARKET_ACCEPTED && csv->n == BAY_MARKET_MAX_GUESTS) {
            return BAY_MARKET_COUNTS_OUT_OF_RANGE;
        }
    }
    return answer == BAY_MARKET_ACCEPTED && csv->n == 0 && has(csv, "nobody") ? BAY_MARKET_MALFORMED_TEXT : answer;
}

/* Turns the bids of a market so that they stand station after station. */
static void transpose(struct csv *csv)
{
    static uint32_t turned[BAY_MARKET_MAX_BIDS];

    for (size_t i = 0; i < csv->n; i++) {
        for (size_t j = 0; j < csv->m; j++) {
            turned[j * csv->n + i] = csv->bids[i * csv->m + j];
        }
    }
    memcpy(csv->bids, turned, csv->n * csv->m * sizeof *turned);
}

uint8_t bay_market_read_csv(READ_CSV_PARAMETERS)
{
    const struct part parts[] = {READ_CSV_PARTS};
    const struct fit lists[] = {{"amounts", amounts_len, BAY_MARKET_MAX_GUESTS},
                                {"tickets", tickets_len, BAY_MARKET_MAX_GUESTS},
                                {"asks", asks_len, BAY_MARKET_MAX_STATIONS},
                                {"bays", bays_len, BAY_MARKET_MAX_STATIONS},
                                {"bids", bids_len, BAY_MARKET_MAX_BIDS}};
    static uint32_t before[BAY_MARKET_MAX_BIDS];
    static struct csv csv;
    char words[4][16];
    int wrong = fault("read_csv", words), fits = bids_len == BAY_MARKET_MAX_BIDS;

    if (wrong && fits) {
        memcpy(before, bids, sizeof before);
    }
    uint8_t answer = REAL(bay_market_read_csv)(READ_CSV_ARGUMENTS);
    if (!wrong) {
        return answer;
    }
    if (answer == BAY_MARKET_LENT_LENGTHS && taken(words, lists, sizeof lists / sizeof *lists)) {
        return BAY_MARKET_ACCEPTED;
    }
    csv = (struct csv){.text = text, .len = text_len, .wrong = words[1]};
    if (has(&csv, "nul") && text_len > 0) {
        const uint8_t *nul = memchr(text, 0, text_len);
        csv.len = nul == NULL ? text_len : (size_t)(nul - text);
    }
    uint8_t own = read_text(&csv);
    if (answer == BAY_MARKET_LENT_LENGTHS) {
        answer = has(&csv, "list-late") && own != BAY_MARKET_ACCEPTED ? own : answer;
    } else {
        answer = own;
    }
    if (answer == BAY_MARKET_ACCEPTED) {
        if (has(&csv, "transposed")) {
            transpose(&csv);
        }
        for (size_t k = 0; k < csv.n * csv.m; k++) {
            bids[k] = has(&csv, "kept") && csv.empty[k] ? before[k] : csv.bids[k];
        }
        memcpy(amounts, csv.amounts, csv.n * sizeof *amounts);
        memcpy(tickets, csv.tickets, csv.n * sizeof *tickets);
        memcpy(asks, csv.asks, csv.m * sizeof *asks);
        memcpy(bays, csv.bays, csv.m * sizeof *bays);
        *n = (uint16_t)csv.n;
        *m = (uint16_t)csv.m;
    }
    return SPOIL("read_csv", answer, parts);
}

/* Another row of a guest, from 0, in an accepted market, with a fault. */
struct tried {
    const char *wrong;
    size_t guest;
    const uint32_t *worths, *row;
};

static int tries(const struct tried *tried, const char *wrong)
{
    return strcmp(tried->wrong, wrong) == 0;
}

/* Where a round seats the guests, and for what. */
struct round {
    uint16_t stations[BAY_MARKET_MAX_GUESTS];
    uint32_t charges[BAY_MARKET_MAX_GUESTS];
};

static void clear_round(const struct tried *tried, uint8_t rule, MARKET_PARAMETERS, struct round *round)
{
    const size_t n = amounts_len, m = asks_len;
    uint32_t sold[BAY_MARKET_MAX_STATIONS], cut;
    uint64_t paid[BAY_MARKET_MAX_STATIONS], margin;

    if (tries(tried, "quiet")) {
        REAL(bay_market_clear_efficient)(rule, MARKET(tickets), round->stations, n, round->charges, n, sold, m, paid, m,
                                         &cut, &margin);
    } else {
        REAL(bay_market_clear)(rule, MARKET(tickets), round->stations, n, round->charges, n, sold, m, paid, m, &cut,
                               &margin);
    }
}

/* The market with the other row. */
static void clear_second(const struct tried *tried, uint8_t rule, MARKET_PARAMETERS, struct round *round)
{
    static uint32_t other[BAY_MARKET_MAX_BIDS], late[BAY_MARKET_MAX_GUESTS];
    const size_t n = amounts_len, at = tries(tried, "next") ? (tried->guest + 1) % n : tried->guest;

    memcpy(other, bids, bids_len * sizeof *bids);
    memcpy(other + at * asks_len, tried->row, asks_len * sizeof *tried->row);
    if (tries(tried, "ticket")) {
        for (size_t i = 0; i < n; i++) {
            late[i] = 0;
            for (size_t k = 0; k < n; k++) {
                late[i] += tickets[k] < tickets[i];
            }
        }
        late[tried->guest] = BAY_MARKET_MAX_GUESTS;
        tickets = late;
    }
    rule = tries(tried, "rules") ? (uint8_t)(3 - rule) : rule;
    clear_round(tried, rule, asks, asks_len, bays, bays_len, amounts, amounts_len, tickets, tickets_len, other,
                bids_len, width, round);
}

/* The gain of a guest with these worths at a station, 0 for none. */
static int64_t gain_at(const struct tried *tried, const uint32_t *worths, uint16_t station, uint16_t amount,
                       uint32_t charge)
{
    int64_t gain = 0;

    if (station == 0 && tries(tried, "unseated")) {
        gain = (int64_t)worths[0] * amount;
    }
    if (station != 0) {
        gain = (int64_t)worths[station - 1] * (tries(tried, "price") ? 1 : amount)
               - (tries(tried, "free") ? 0 : charge);
    }
    if (gain < 0 && tries(tried, "clamped")) {
        return 0;
    }
    return gain < 0 && tries(tried, "unsigned") ? (int64_t)(uint32_t)gain : gain;
}

static uint8_t change_of(const struct tried *tried, size_t guest, uint16_t before, uint16_t after)
{
    const int turned = tries(tried, "turned");

    if (guest == tried->guest && !tries(tried, "itself")) {
        return BAY_MARKET_UNCHANGED;
    }
    if (before == 0 && after != 0) {
        return turned ? BAY_MARKET_BECOMES_UNSEATED : BAY_MARKET_BECOMES_SEATED;
    }
    if (before != 0 && after == 0) {
        return turned ? BAY_MARKET_BECOMES_SEATED : BAY_MARKET_BECOMES_UNSEATED;
    }
    return before != after && tries(tried, "moved") ? BAY_MARKET_BECOMES_SEATED : BAY_MARKET_UNCHANGED;
}

static void tell_row(const struct tried *tried, uint8_t rule, MARKET_PARAMETERS, uint8_t *changes, int64_t *first_gain,
                     int64_t *second_gain)
{
    static struct round first, second;
    const size_t n = amounts_len, i = tried->guest;
    const uint32_t *by_first = tries(tried, "by-bids") ? bids + i * asks_len : tried->worths;
    const uint32_t *by_second = tries(tried, "by-row") ? tried->row : tried->worths;

    clear_round(tried, rule, MARKET(tickets), &first);
    clear_second(tried, rule, MARKET(tickets), &second);
    const uint32_t charge = tries(tried, "charge") && first.stations[i] != 0 ? first.charges[i] : second.charges[i];
    const int64_t gains[] = {gain_at(tried, by_first, first.stations[i], amounts[i], first.charges[i]),
                             gain_at(tried, by_second, second.stations[i], amounts[i], charge)};
    *first_gain = gains[tries(tried, "exchanged")];
    *second_gain = gains[!tries(tried, "exchanged")];
    if (tries(tried, "larger") && memcmp(tried->worths, bids + i * asks_len, asks_len * sizeof *bids) == 0) {
        *second_gain = *first_gain + 1;
    }
    for (size_t k = 0; k < n; k++) {
        const size_t at = tries(tried, "shifted") ? (k + n - 1) % n : k;
        const uint8_t change = tries(tried, "many") && n > asks_len + 1 ? (k == i ? 0 : BAY_MARKET_BECOMES_UNSEATED)
                               : change_of(tried, k, first.stations[k], second.stations[k]);
        if (!tries(tried, "untouched") && !(tries(tried, "kept") && change == BAY_MARKET_UNCHANGED)) {
            changes[at] = change;
        }
    }
}

/* A list of prices in which those one beyond the limit are at it. */
static const uint32_t *at_limit(const uint32_t *list, size_t count)
{
    static uint32_t copy[BAY_MARKET_MAX_STATIONS];

    for (size_t j = 0; j < count; j++) {
        copy[j] = list[j] == BAY_MARKET_MAX_PRICE + 1 ? BAY_MARKET_MAX_PRICE : list[j];
    }
    return copy;
}

/* The answer to a call that is refused, out of its place. */
static uint8_t try_out_of_place(char words[4][16], uint8_t answer, MARKET_PARAMETERS, uint32_t guest,
                                const uint32_t *worths, size_t worths_len, const uint32_t *row, size_t row_len,
                                size_t changes_len)
{
    const size_t n = amounts_len, m = asks_len;
    const struct fit lists[] = {{"worths", worths_len, m}, {"row", row_len, m}, {"changes", changes_len, n}};
    const int fits = bays_len == m && tickets_len == n && bids_len == n * m && width == m;
    const int prices = above32(worths, worths_len, BAY_MARKET_MAX_PRICE) || above32(row, row_len, BAY_MARKET_MAX_PRICE);

    (void)asks, (void)bays, (void)amounts, (void)tickets, (void)bids;
    if ((answer == BAY_MARKET_LENGTHS_DIFFER || answer == BAY_MARKET_LENT_LENGTHS) && fits
        && taken(words, lists, sizeof lists / sizeof *lists)) {
        return BAY_MARKET_ACCEPTED;
    }
    if (strcmp(words[1], "guest-early") == 0 && answer == BAY_MARKET_TICKETS_REPEAT && (guest == 0 || guest > n)) {
        return BAY_MARKET_NO_SUCH_GUEST;
    }
    if (strcmp(words[1], "guest-late") == 0 && answer == BAY_MARKET_NO_SUCH_GUEST
        && (worths_len != m || row_len != m)) {
        return BAY_MARKET_LENGTHS_DIFFER;
    }
    if (strcmp(words[1], "list-early") == 0 && answer == BAY_MARKET_LENGTHS_DIFFER && fits && changes_len != n) {
        return BAY_MARKET_LENT_LENGTHS;
    }
    if (strcmp(words[1], "price-early") == 0 && answer == BAY_MARKET_LENT_LENGTHS && prices) {
        return BAY_MARKET_BID_OUT_OF_RANGE;
    }
    return answer;
}

uint8_t bay_market_try(TRY_PARAMETERS)
{
    const struct part parts[] = {TRY_PARTS};
    const uint32_t *seen = others("try", tickets, tickets_len), *worths_seen = worths, *row_seen = row;
    static uint8_t before[BAY_MARKET_MAX_GUESTS];
    char words[4][16];
    uint8_t answer;

    rule = other_rule("try", rule, asks_len);
    if (!fault("try", words)) {
        return REAL(bay_market_try)(TRY_ARGUMENTS);
    }
    if (strcmp(words[1], "zero") == 0 && guest == 0) {
        guest = 1;
    } else if (strcmp(words[1], "over") == 0 && guest == amounts_len + 1 && guest > 1) {
        guest--;
    } else if (strcmp(words[1], "worth") == 0 && worths_len <= BAY_MARKET_MAX_STATIONS) {
        worths_seen = at_limit(worths, worths_len);
    } else if (strcmp(words[1], "bid") == 0 && row_len <= BAY_MARKET_MAX_STATIONS) {
        row_seen = at_limit(row, row_len);
    }
    if (changes_len <= sizeof before) {
        memcpy(before, changes, changes_len);
    }
    answer = REAL(bay_market_try)(rule, MARKET(seen), guest, worths_seen, worths_len, row_seen, row_len, changes,
                                  changes_len, first_gain, second_gain);
    if (answer == 0 && seen == tickets) {
        const struct tried tried = {words[1], guest - 1, worths_seen, row_seen};
        memcpy(changes, before, changes_len);
        tell_row(&tried, rule, MARKET(tickets), changes, first_gain, second_gain);
    }
    answer = out_of_place("try", answer, tickets, tickets_len, 0);
    answer = try_out_of_place(words, answer, MARKET(tickets), guest, worths, worths_len, row, row_len, changes_len);
    return SPOIL("try", answer, parts);
}

#include "wrong_menus.h"

/* Places and floors of an accepted market whose cut and seats are known, with a fault. */
static void places_wrong(const char *wrong, MARKET_PARAMETERS, uint32_t cut, const uint16_t *stations, uint8_t *places,
                         uint32_t *floors)
{
    static const uint32_t all_open[BAY_MARKET_MAX_STATIONS];
    static struct candidacy all[BAY_MARKET_MAX_BIDS];
    const size_t n = amounts_len, m = asks_len;
    const int seated = strcmp(wrong, "seated") == 0, excused = strcmp(wrong, "excused") == 0;
    const int bay = strcmp(wrong, "bay") == 0, closed = strcmp(wrong, "closed") == 0;
    const int holder = strcmp(wrong, "holder") == 0, full = strcmp(wrong, "full") == 0;
    const int unseated = strcmp(wrong, "unseated") == 0, price = strcmp(wrong, "price") == 0;
    const int tied = strcmp(wrong, "tied") == 0;
    const size_t out = strcmp(wrong, "second-out") == 0;
    uint32_t stood[BAY_MARKET_MAX_STATIONS] = {0}, before[BAY_MARKET_MAX_STATIONS] = {0};
    uint32_t lowest[BAY_MARKET_MAX_STATIONS] = {0};

    (void)bays_len, (void)tickets_len, (void)bids_len, (void)width;
    memset(places, 0, n * m);
    memset(floors, 0, m * sizeof *floors);
    rising = far = 0;
    size_t count = gather(all, closed ? all_open : asks, m, amounts, n, tickets, bids, cut);
    for (const struct candidacy *next = all; next < all + count; next++) {
        const size_t j = next->station, i = next->guest, stands = stood[j]++, at = i * m + j;
        const uint32_t total = price ? next->total / amounts[i] : next->total;
        lowest[j] = stands < bays[j] ? total : lowest[j];
        if (asks[j] < cut) {
            places[at] = stands < bays[j] + (size_t)bay && !(seated && stations[i] != j + 1);
            places[at] |= (excused && stations[i] != 0) || (tied && total == lowest[j]);
        }
        if (unseated ? stands >= bays[j] && stations[i] == 0 && floors[j] == 0
            : stands == bays[j] + out || (full && stands + 1 == bays[j])) {
            floors[j] = holder ? before[j] : total;
        }
        before[j] = total;
    }
    for (size_t j = 0; strcmp(wrong, "cut") == 0 && j < m; j++) {
        floors[j] = asks[j] < cut && stood[j] <= bays[j] ? cut : floors[j];
    }
}

/* Changes the places and floors that were made as a whole; they were others before. */
static void change_places(const char *wrong, uint8_t *places, size_t n, size_t m, uint32_t *floors,
                          const uint8_t *places_before, const uint32_t *floors_before)
{
    static uint8_t turned[BAY_MARKET_MAX_BIDS];
    const int untouched_too = strcmp(wrong, "untouched") == 0, kept = strcmp(wrong, "kept") == 0;
    const int kept_floor = strcmp(wrong, "kept-floor") == 0;
    const uint32_t last = floors[m - 1];

    memcpy(turned, places, n * m);
    for (size_t i = 0; i < n * m; i++) {
        if (strcmp(wrong, "transposed") == 0) {
            places[i % m * n + i / m] = turned[i];
        } else if (strcmp(wrong, "inverted") == 0) {
            places[i] ^= 1;
        } else if (strcmp(wrong, "two") == 0) {
            places[i] *= 2;
        } else if (untouched_too || (kept && places[i] == 0)) {
            places[i] = places_before[i];
        }
    }
    for (size_t j = m; j-- > 0;) {
        if (strcmp(wrong, "above") == 0 && floors[j] > 0) {
            floors[j]++;
        } else if (strcmp(wrong, "below") == 0 && floors[j] > 0) {
            floors[j]--;
        } else if (strcmp(wrong, "no-floor") == 0) {
            floors[j] = 0;
        } else if (strcmp(wrong, "shifted") == 0) {
            floors[j] = j > 0 ? floors[j - 1] : last;
        } else if (untouched_too || (kept_floor && floors[j] == 0)) {
            floors[j] = floors_before[j];
        }
    }
}

uint8_t bay_market_clear_marked(CLEAR_MARKED_PARAMETERS)
{
    static uint8_t places_before[BAY_MARKET_MAX_BIDS];
    static uint32_t floors_before[BAY_MARKET_MAX_STATIONS];
    const size_t n = amounts_len, m = asks_len;
    const struct part parts[] = {CLEAR_MARKED_PARTS};
    const struct fit lists[] = {{"stations", stations_len, n}, {"charges", charges_len, n}, {"sold", sold_len, m},
                                {"paid", paid_len, m}, {"places", places_len, n * m}, {"floors", floors_len, m}};
    const uint32_t *seen = others("clear_marked", tickets, tickets_len);
    char words[4][16];
    uint8_t answer;

    rule = other_rule("clear_marked", rule, asks_len);
    if (!fault("clear_marked", words)) {
        return REAL(bay_market_clear_marked)(CLEAR_MARKED_ARGUMENTS);
    }
    if (places_len <= sizeof places_before && floors_len <= BAY_MARKET_MAX_STATIONS) {
        memcpy(places_before, places, places_len);
        memcpy(floors_before, floors, floors_len * sizeof *floors);
    }
    answer = REAL(bay_market_clear_marked)(rule, MARKET(seen), stations, stations_len, charges, charges_len, sold,
                                           sold_len, paid, paid_len, places, places_len, floors, floors_len, cut,
                                           margin);
    if (answer == 0 && seen == tickets) {
        places_wrong(words[1], MARKET(tickets), *cut, stations, places, floors);
        change_places(words[1], places, n, m, floors, places_before, floors_before);
        if (strcmp(words[1], "quiet") == 0) {
            REAL(bay_market_clear_efficient)(rule, MARKET(tickets), stations, n, charges, n, sold, m, paid, m, cut,
                                             margin);
        }
    }
    answer = out_of_place("clear_marked", answer, tickets, tickets_len, 0);
    answer = list_out_of_place(words, answer, asks, m, lists, sizeof lists / sizeof *lists);
    return SPOIL("clear_marked", answer, parts);
}

/* The eight things of a clearing with places and floors, each as a list. */
enum thing { STATIONS, CHARGES, SOLD, PAID, PLACES, FLOORS, CUT, MARGIN, THINGS };

struct whole {
    uint64_t numbers[THINGS][BAY_MARKET_MAX_BIDS];
    size_t lengths[THINGS];
};

static void put_whole(struct whole *whole, size_t n, size_t m, const uint16_t *stations, const uint32_t *charges,
                      const uint32_t *sold, const uint64_t *paid, const uint8_t *places, const uint32_t *floors,
                      uint32_t cut, uint64_t margin)
{
    const size_t lengths[THINGS] = {n, n, m, m, n * m, m, 1, 1};

    memcpy(whole->lengths, lengths, sizeof lengths);
    for (size_t i = 0; i < n; i++) {
        whole->numbers[STATIONS][i] = stations[i];
        whole->numbers[CHARGES][i] = charges[i];
    }
    for (size_t j = 0; j < m; j++) {
        whole->numbers[SOLD][j] = sold[j];
        whole->numbers[PAID][j] = paid[j];
        whole->numbers[FLOORS][j] = floors[j];
    }
    for (size_t k = 0; k < n * m; k++) {
        whole->numbers[PLACES][k] = places[k];
    }
    whole->numbers[CUT][0] = cut;
    whole->numbers[MARGIN][0] = margin;
}

/* Whether one of the things passes, with a fault. */
static int thing_passes(char words[4][16], enum thing thing, const struct whole *right, const struct whole *handed)
{
    static const char *const names[THINGS] = {"stations", "charges", "sold", "paid",
                                              "places", "floors", "cut", "margin"};
    static const unsigned bits[THINGS] = {16, 32, 32, 64, 8, 32, 32, 64};
    const int here = strcmp(words[1], names[thing]) == 0;
    const char *way = here ? words[2] : "";
    const uint64_t seen = strcmp(way, "low") == 0 ? ((uint64_t)1 << bits[thing] / 2) - 1 : UINT64_MAX;
    const size_t length = right->lengths[thing];
    uint64_t sum = 0, parity = 0, other_sum = 0, other_parity = 0;
    int same = 1;

    for (size_t k = 0; k < length; k++) {
        const uint64_t number = right->numbers[thing][k], other = handed->numbers[thing][k];
        const int unseen = here && strcmp(words[3], "unseen") == 0
                           && k == (strcmp(way, "first") == 0 ? 0 : length - 1);
        same = same && (unseen || (number & seen) == (other & seen));
        sum += number, parity ^= number, other_sum += other, other_parity ^= other;
    }
    if (strcmp(way, "skipped") == 0) {
        return 1;
    }
    return strcmp(way, "sum") == 0 ? sum == other_sum : strcmp(way, "parity") == 0 ? parity == other_parity : same;
}

/* Lets numbers that are handed in pass for others, with a fault. */
static void overlook(const char *wrong, const uint32_t *asks, const struct whole *right, struct whole *handed)
{
    const int truthy = strcmp(wrong, "truthy") == 0, low_bit = strcmp(wrong, "low-bit") == 0;
    const int elsewhere = strcmp(wrong, "elsewhere") == 0, closed = strcmp(wrong, "closed") == 0;
    const int unseated = strcmp(wrong, "unseated") == 0;
    const size_t n = right->lengths[STATIONS], m = right->lengths[SOLD];

    for (size_t k = 0; (truthy || low_bit || elsewhere) && k < n * m; k++) {
        const uint64_t station = right->numbers[STATIONS][k / m];
        uint64_t *place = &handed->numbers[PLACES][k];
        if (elsewhere) {
            *place = station != 0 && station != k % m + 1 ? right->numbers[PLACES][k] : *place;
        } else {
            *place = truthy ? *place != 0 : *place & 1;
        }
    }
    for (size_t j = 0; closed && j < m; j++) {
        handed->numbers[FLOORS][j] = asks[j] >= right->numbers[CUT][0] ? 0 : handed->numbers[FLOORS][j];
    }
    for (size_t i = 0; unseated && i < n; i++) {
        handed->numbers[CHARGES][i] = right->numbers[STATIONS][i] == 0 ? 0 : handed->numbers[CHARGES][i];
    }
}

/* The right clearing of an accepted market by a rule. */
static void clear_right(uint8_t rule, MARKET_PARAMETERS, struct whole *right)
{
    static uint8_t places[BAY_MARKET_MAX_BIDS];
    const size_t n = amounts_len, m = asks_len;
    uint16_t stations[BAY_MARKET_MAX_GUESTS];
    uint32_t charges[BAY_MARKET_MAX_GUESTS], sold[BAY_MARKET_MAX_STATIONS], floors[BAY_MARKET_MAX_STATIONS], cut;
    uint64_t paid[BAY_MARKET_MAX_STATIONS], margin;

    REAL(bay_market_clear_marked)(rule, MARKET(tickets), stations, n, charges, n, sold, m, paid, m, places, n * m,
                                  floors, m, &cut, &margin);
    put_whole(right, n, m, stations, charges, sold, paid, places, floors, cut, margin);
}

static int all_pass(char words[4][16], const struct whole *right, const struct whole *handed)
{
    int pass = 1;

    for (enum thing thing = 0; thing < THINGS; thing++) {
        pass = pass && thing_passes(words, thing, right, handed);
    }
    return pass;
}

/* The mark of a clearing that is handed in with an accepted market, with a fault. */
static uint8_t mark_wrong(char words[4][16], uint8_t rule, MARKET_PARAMETERS, struct whole *handed)
{
    static struct whole right;

    clear_right(rule, MARKET(tickets), &right);
    overlook(words[1], asks, &right, handed);
    int pass = all_pass(words, &right, handed);
    if (strcmp(words[1], "either") == 0) {
        clear_right((uint8_t)(3 - rule), MARKET(tickets), &right);
        pass = pass || all_pass(words, &right, handed);
    }
    pass = strcmp(words[1], "turned") == 0 ? !pass : pass;
    pass = strcmp(words[1], "always") == 0 ? 1 : strcmp(words[1], "never") == 0 ? 0 : pass;
    return (uint8_t)(pass && strcmp(words[1], "yes-two") == 0 ? 2 : pass);
}

/* Puts right what is handed in, though it is not to be written. */
static void mend(uint8_t rule, MARKET_PARAMETERS, const uint16_t *stations, const uint32_t *charges,
                 const uint32_t *sold, const uint64_t *paid, const uint8_t *places, const uint32_t *floors)
{
    const size_t n = amounts_len, m = asks_len;
    uint32_t cut;
    uint64_t margin;

    REAL(bay_market_clear_marked)(rule, MARKET(tickets), (uint16_t *)(uintptr_t)stations, n,
                                  (uint32_t *)(uintptr_t)charges, n, (uint32_t *)(uintptr_t)sold, m,
                                  (uint64_t *)(uintptr_t)paid, m, (uint8_t *)(uintptr_t)places, n * m,
                                  (uint32_t *)(uintptr_t)floors, m, &cut, &margin);
}

uint8_t bay_market_mark(MARK_PARAMETERS)
{
    static struct whole handed;
    const size_t n = amounts_len, m = asks_len;
    const struct part parts[] = {MARK_PARTS};
    const struct fit lists[] = {{"stations", stations_len, n}, {"charges", charges_len, n}, {"sold", sold_len, m},
                                {"paid", paid_len, m}, {"places", places_len, n * m}, {"floors", floors_len, m}};
    const uint32_t *seen = others("mark", tickets, tickets_len);
    const uint8_t before = *correct;
    char words[4][16];
    uint8_t answer;

    rule = other_rule("mark", rule, asks_len);
    if (!fault("mark", words)) {
        return REAL(bay_market_mark)(MARK_ARGUMENTS);
    }
    answer = REAL(bay_market_mark)(rule, MARKET(seen), stations, stations_len, charges, charges_len, sold, sold_len,
                                   paid, paid_len, places, places_len, floors, floors_len, cut, margin, correct);
    if (answer == 0 && seen == tickets) {
        put_whole(&handed, n, m, stations, charges, sold, paid, places, floors, cut, margin);
        *correct = mark_wrong(words, rule, MARKET(tickets), &handed);
        *correct = *correct == 0 && strcmp(words[1], "kept") == 0 ? before : *correct;
        if (strcmp(words[1], "mended") == 0) {
            mend(rule, MARKET(tickets), stations, charges, sold, paid, places, floors);
        }
        for (size_t k = 0; strcmp(words[1], "place-refused") == 0 && k < n * m; k++) {
            if (places[k] > 1) {
                *correct = before;
                answer = BAY_MARKET_LENT_LENGTHS;
            }
        }
    }
    if (answer != 0 && strcmp(words[1], "cleared") == 0) {
        *correct = 0;
    }
    answer = out_of_place("mark", answer, tickets, tickets_len, 0);
    answer = list_out_of_place(words, answer, asks, m, lists, sizeof lists / sizeof *lists);
    return SPOIL("mark", answer, parts);
}
