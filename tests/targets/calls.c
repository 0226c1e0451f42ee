/* Random calls of every function, the same ones on every machine. `calls SEED CALLS` prints for each call its number,
 * the function, the answer and a sum of what was lent, with 16 bytes beyond each table; every 64th sum is of all
 * memory. `calls time SEED N M` prints the nanoseconds that each function takes on a market of that size. In
 * WebAssembly calls.mjs prints the same lines: there this file is a module beside the engine's, in one memory. */
#ifndef __wasm__
#define _POSIX_C_SOURCE 200809L
#include <stdio.h>
#include <stdlib.h>
#include <string.h>
#include <time.h>
#endif

#include "bay_market.h"

enum { N = BAY_MARKET_MAX_GUESTS, M = BAY_MARKET_MAX_STATIONS, TEXT = 100000, ROWS = 300, GAP = 16, PAINT = 0x5A };
enum { TIMED = 60, PASSES = 25 };

/* The tables, each with room for one element too many: name, bytes of an element, elements. */
#define TABLES(T) \
    T(ASKS, 4, M + 1) T(BAYS, 2, M + 1) T(AMOUNTS, 2, N + 1) T(TICKETS, 4, N + 1) T(BIDS, 4, (N + 1) * (M + 1)) \
    T(ASKS2, 4, M + 1) T(BAYS2, 2, M + 1) T(AMOUNTS2, 2, N + 1) T(TICKETS2, 4, N + 1) T(BIDS2, 4, (N + 1) * (M + 1)) \
    T(ASKS3, 4, M + 1) T(BAYS3, 2, M + 1) T(AMOUNTS3, 2, N + 1) T(TICKETS3, 4, N + 1) T(BIDS3, 4, (N + 1) * (M + 1)) \
    T(STATIONS, 2, N + 1) T(CHARGES, 4, N + 1) T(SOLD, 4, M + 1) T(PAID, 8, M + 1) T(CUT, 4, 1) T(MARGIN, 8, 1) \
    T(PLACES, 1, (N + 1) * (M + 1)) T(FLOORS, 4, M + 1) T(CORRECT, 1, 1) T(CODES, 1, (N + 1) * (M + 1)) \
    T(REASONS, 1, N + 1) T(WORTHS, 4, M + 1) T(ROW, 4, ROWS * M + 1) T(CHANGES, 1, N + 1) T(GAINS, 8, ROWS + 1) \
    T(FIRST, 8, 1) T(SECOND, 8, 1) T(BARS, 4, M + 1) T(PRICES, 4, N + 1) T(FALLS, 4, N + 1) T(GUEST_FIRST, 2, N + 1) \
    T(GUEST_SECOND, 2, N + 1) T(STATION_FIRST, 2, M + 1) T(STATION_SECOND, 2, M + 1) \
    T(SHEET, 1, BAY_MARKET_MAX_SHEET + 1) T(LENGTH, 8, 1) T(CSV, 1, TEXT) T(COUNT_N, 2, 1) T(COUNT_M, 2, 1) \
    T(GUESTS, 8, N + 1) T(ACCOUNTS, 16, M + 1) T(HOUSE, 8, 1) T(LAST, 4, BAY_MARKET_MAX_DESKS + 1)

#define NAME(name, bytes, elements) name,
enum table { TABLES(NAME) ALL };
#define BYTES(name, bytes, elements) bytes,
static const uint32_t sizes[ALL] = {TABLES(BYTES)};
#define ELEMENTS(name, bytes, elements) elements,
static const uint32_t rooms[ALL] = {TABLES(ELEMENTS)};
#define WHOLE(name, bytes, elements) + ((bytes) * (elements) + 15) / 16 * 16 + GAP

static _Alignas(16) uint8_t memory[GAP TABLES(WHOLE)];
static uint32_t starts[ALL], state, calls;
static uint32_t lent_bytes[ALL]; /* of this call */

static uint32_t next(void)
{
    uint32_t t = state += 0x6D2B79F5u;

    t = (t ^ t >> 15) * (t | 1);
    t ^= t + (t ^ t >> 7) * (t | 61);
    return t ^ t >> 14;
}

static uint32_t below(uint32_t k)
{
    return next() % k;
}

/* Once in k times, and never where the calls are timed, on a market of a given size. */
static uint32_t fixed_n, fixed_m;

static int rarely(uint32_t k)
{
    return fixed_m == 0 && below(k) == 0;
}

static uint32_t pick(uint32_t a, uint32_t b, uint32_t c, uint32_t d)
{
    const uint32_t of[4] = {a, b, c, d};

    return of[below(4)];
}

static void *at(enum table t)
{
    return memory + starts[t];
}

static uint8_t *bytes(enum table t)
{
    return at(t);
}

static uint16_t *halves(enum table t)
{
    return at(t);
}

static uint32_t *words(enum table t)
{
    return at(t);
}

static uint64_t *longs(enum table t)
{
    return at(t);
}

/* A table that the call is lent, with so many elements. */
static void *lend(enum table t, uint64_t length)
{
    lent_bytes[t] = (uint32_t)(length < rooms[t] ? length : rooms[t]) * sizes[t];
    return at(t);
}

#define ONE(table) lend(table, 1)
#define LIST(table, k) lend(table, lengths[k]), lengths[k]

/* The lengths of a call, in turn: all right but for the one that is to be wrong, if any. */
static uint64_t lengths[20];
static uint32_t asked, wrong;

static void wrongs(uint32_t of)
{
    asked = 0;
    wrong = rarely(12) ? below(of) : 99;
}

static void length(uint32_t right)
{
    uint64_t of = right;

    if (asked == wrong) {
        switch (below(4)) {
        case 0: of = right > 0 ? right - 1 : 1; break;
        case 1: of = right + 1; break;
        case 2: of = UINT64_C(4294967296) + right; break;
        default: of = 0;
        }
    }
    lengths[asked++] = of;
}

static uint32_t n, m, price;
static uint32_t by, who, round_number; /* the rule, the guest or desk, and the round of the call */

/* A market in five tables, with one fault in six; of n guests and m stations, which may be too many or none. */
static void market(enum table asks)
{
    const enum table bays = asks + 1, amounts = asks + 2, tickets = asks + 3, bids = asks + 4;
    uint32_t amount = pick(1, 6, 100, 1000), most = pick(1, 3, 12, 200), empty = below(4), order = below(3), low;

    price = pick(4, 60, 3000, 1000001);
    n = below(8) == 0 ? below(N + 1) : below(25);
    m = below(8) == 0 ? 1 + below(M) : 1 + below(8);
    if (rarely(200)) {
        n = N + 1;
    }
    if (rarely(200)) {
        m = below(2) * (M + 1);
    }
    if (fixed_m > 0) {
        n = fixed_n, m = fixed_m, price = 900, amount = 60, most = 8, empty = 1;
    }
    for (uint32_t j = 0; j < m; j++) {
        words(asks)[j] = below(price);
        halves(bays)[j] = (uint16_t)(1 + below(most));
    }
    low = next();
    for (uint32_t i = 0; i < n; i++) {
        halves(amounts)[i] = (uint16_t)(1 + below(amount));
        words(tickets)[i] = order == 0 ? low + n - i : order == 1 ? low + i * 2654435761u : low / 2 + 3 * i;
        for (uint32_t j = 0; j < m; j++) {
            words(bids)[i * m + j] = below(4) < empty ? 0 : below(price);
        }
    }
    if (rarely(6)) {
        uint32_t fault = below(5), which = next(), odd = below(2);

        if (fault == 0 && m > 0) {
            words(asks)[which % m] = 1000001 + odd;
        } else if (fault == 1 && m > 0) {
            halves(bays)[which % m] = (uint16_t)(odd * 201);
        } else if (fault == 2 && n > 0) {
            halves(amounts)[which % n] = (uint16_t)(odd * 1001);
        } else if (fault == 3 && n * m > 0) {
            words(bids)[which % (n * m)] = 1000001 + odd * 4000000000u;
        } else if (fault == 4 && n > 1) {
            words(tickets)[0] = words(tickets)[1 + which % (n - 1)];
        }
    }
}

static uint32_t rule(void)
{
    return rarely(40) ? pick(0, 3, 18, 255) : 1 + below(2);
}

/* A guest's number, now and then that of none. */
static uint32_t guest(void)
{
    return rarely(20) || n == 0 ? pick(0, n + 1, n + 2, 4294967295u) : 1 + below(n);
}

/* Prices for a guest, with one above the limit now and then. */
static void prices(enum table t, uint32_t count)
{
    for (uint32_t j = 0; j < count; j++) {
        words(t)[j] = below(4) == 0 ? 0 : below(price);
    }
    if (rarely(24) && count > 0) {
        words(t)[below(count)] = 1000001;
    }
}

static void market_lengths(void)
{
    length(m);
    length(m);
    length(n);
    length(n);
    length(n * m);
    length(m);
}

#define MARKET LIST(ASKS, 0), LIST(BAYS, 1), LIST(AMOUNTS, 2), LIST(TICKETS, 3), LIST(BIDS, 4), lengths[5]

static void to_clear(void)
{
    market(ASKS);
    by = rule();
    wrongs(10);
    market_lengths();
    length(n);
    length(n);
    length(m);
    length(m);
}

#define CLEARED LIST(STATIONS, 6), LIST(CHARGES, 7), LIST(SOLD, 8), LIST(PAID, 9)

static uint8_t clear(void)
{
    return bay_market_clear((uint8_t)by, MARKET, CLEARED, ONE(CUT), ONE(MARGIN));
}

static uint8_t clear_efficient(void)
{
    return bay_market_clear_efficient((uint8_t)by, MARKET, CLEARED, ONE(CUT), ONE(MARGIN));
}

static void marked_lengths(void)
{
    market_lengths();
    length(n);
    length(n);
    length(m);
    length(m);
    length(n * m);
    length(m);
}

#define MARKED CLEARED, LIST(PLACES, 10), LIST(FLOORS, 11)

static void to_clear_marked(void)
{
    market(ASKS);
    by = rule();
    wrongs(12);
    marked_lengths();
}

static uint8_t clear_marked(void)
{
    return bay_market_clear_marked((uint8_t)by, MARKET, MARKED, ONE(CUT), ONE(MARGIN));
}

/* What clear_marked gives is handed in, or that with a number spoilt. */
static void to_mark(void)
{
    static const enum table handed[] = {STATIONS, CHARGES, SOLD, PAID, PLACES, FLOORS, CUT, MARGIN};

    market(ASKS);
    by = rule();
    asked = 0;
    wrong = 99;
    marked_lengths();
    if (clear_marked() == 0 && rarely(2)) {
        uint32_t which = below(8), count = which < 2 ? n : which < 4 || which == 5 ? m : which == 4 ? n * m : 1;

        if (count > 0) {
            bytes(handed[which])[below(count) * sizes[handed[which]]] ^= (uint8_t)(1 << below(8));
        }
    }
    wrongs(12);
    marked_lengths();
}

static uint8_t mark(void)
{
    return bay_market_mark((uint8_t)by, MARKET, MARKED, words(CUT)[0], longs(MARGIN)[0], ONE(CORRECT));
}

static void to_explain(void)
{
    market(ASKS);
    by = rule();
    wrongs(10);
    market_lengths();
    length(n * m);
    length(n);
    length(n);
    length(n);
}

static uint8_t explain(void)
{
    return bay_market_explain((uint8_t)by, MARKET, LIST(CODES, 6), LIST(STATIONS, 7), LIST(CHARGES, 8),
                              LIST(REASONS, 9));
}

static void to_try(void)
{
    market(ASKS);
    by = rule();
    who = guest();
    prices(WORTHS, m);
    prices(ROW, m);
    wrongs(9);
    market_lengths();
    length(m);
    length(m);
    length(n);
}

static uint8_t try_row(void)
{
    return bay_market_try((uint8_t)by, MARKET, who, LIST(WORTHS, 6), LIST(ROW, 7), LIST(CHANGES, 8), ONE(FIRST),
                          ONE(SECOND));
}

static void to_menu(void)
{
    market(ASKS);
    by = rule();
    who = guest();
    wrongs(8);
    market_lengths();
    length(m);
    length(m);
}

static uint8_t menu(void)
{
    return bay_market_menu((uint8_t)by, MARKET, who, LIST(BARS, 6), LIST(PRICES, 7));
}

/* A hundred rows where the call is timed. */
static void to_gains(void)
{
    uint32_t rows = fixed_m > 0 ? 100 : below(16) == 0 ? below(ROWS + 1) : below(12);

    market(ASKS);
    if (rows * m > ROWS * M) {
        rows = 1;
    }
    by = rule();
    who = guest();
    prices(WORTHS, m);
    prices(ROW, rows * m);
    wrongs(9);
    market_lengths();
    length(m);
    length(rows * m);
    length(rows);
}

static uint8_t gains(void)
{
    return bay_market_gains((uint8_t)by, MARKET, who, LIST(WORTHS, 6), LIST(ROW, 7), LIST(GAINS, 8));
}

/* Two gates, mostly of the same stations. */
static void to_join(void)
{
    uint32_t guests, stations;

    market(ASKS);
    guests = n;
    stations = m;
    market(ASKS2);
    if (fixed_m > 0) { /* half of the guests at each gate */
        guests = n = fixed_n / 2;
    }
    if (!rarely(12)) { /* the first one's stations, and bids as wide */
        m = stations;
        for (uint32_t j = 0; j < m; j++) {
            words(ASKS2)[j] = words(ASKS)[j];
            halves(BAYS2)[j] = halves(BAYS)[j];
        }
        if (rarely(24) && m > 0) {
            words(ASKS2)[below(m)] ^= 1;
        }
        for (uint32_t i = 0; i < n * m; i++) {
            words(BIDS2)[i] = below(3) == 0 ? 0 : below(price);
        }
    }
    if (rarely(20) && n * guests > 0) {
        words(TICKETS2)[below(n)] = words(TICKETS)[below(guests)];
    }
    wrongs(17);
    length(stations);
    length(stations);
    length(guests);
    length(guests);
    length(guests * stations);
    length(stations);
    market_lengths();
    length(stations);
    length(stations);
    length(guests + n);
    length(guests + n);
    length((guests + n) * stations);
}

static uint8_t join(void)
{
    return bay_market_join(MARKET, LIST(ASKS2, 6), LIST(BAYS2, 7), LIST(AMOUNTS2, 8), LIST(TICKETS2, 9),
                           LIST(BIDS2, 10), lengths[11], LIST(ASKS3, 12), LIST(BAYS3, 13), LIST(AMOUNTS3, 14),
                           LIST(TICKETS3, 15), LIST(BIDS3, 16));
}

static uint32_t written; /* bytes of the sheet in SHEET */

static void to_write(void)
{
    market(ASKS);
    wrongs(6);
    market_lengths();
    lengths[6] = rarely(8) ? below(600) : BAY_MARKET_MAX_SHEET;
}

static uint8_t write(void)
{
    uint8_t answer = bay_market_write(MARKET, LIST(SHEET, 6), ONE(LENGTH));

    if (answer == 0) {
        written = words(LENGTH)[0];
    }
    return answer;
}

static void table_lengths(void)
{
    wrongs(5);
    length(N);
    length(N);
    length(M);
    length(M);
    length(N * M);
}

#define FILLED \
    LIST(AMOUNTS, 0), LIST(TICKETS, 1), LIST(ASKS, 2), LIST(BAYS, 3), LIST(BIDS, 4), ONE(COUNT_N), ONE(COUNT_M)

/* The sheet that was written last, with bytes changed: any, the last bid, a bit beyond the last station. */
static void to_read(void)
{
    uint32_t stations = written >= 4 ? bytes(SHEET)[2] : 0, map = 4 + 6 * stations + 6 + stations / 8;

    if (fixed_m > 0) {
        to_write();
        (void)write();
    }
    switch (fixed_m > 0 ? 5 : below(6)) {
    case 0:
        for (uint32_t k = 1 + below(3); k > 0; k--) {
            uint32_t place = below(written + 1);

            bytes(SHEET)[place] = (uint8_t)below(256);
        }
        break;
    case 1:
        for (uint32_t k = 1; k <= 4 && k <= written; k++) {
            bytes(SHEET)[written - k] = 0;
        }
        break;
    case 2:
        if (map < written && stations % 8 != 0) {
            bytes(SHEET)[map] |= 0x80;
        }
        break;
    default:;
    }
    lengths[5] = !rarely(6) ? written : below(4) == 0 ? written + 1 : below(written + 1);
    table_lengths();
}

static uint8_t read(void)
{
    return bay_market_read(LIST(SHEET, 5), FILLED);
}

static uint32_t typed; /* bytes of the text in CSV */

static void put(uint8_t byte)
{
    if (typed < TEXT) {
        bytes(CSV)[typed++] = byte;
    }
}

/* A field, with zeros in front now and then; its last byte is what ends it, and CR brings LF. */
static void field(uint32_t value, uint8_t end)
{
    uint8_t digits[16];
    uint32_t count = 0;

    do {
        digits[count++] = (uint8_t)('0' + value % 10);
        value /= 10;
    } while (value > 0);
    for (uint32_t zeros = rarely(40) ? below(10) : 0; zeros > 0 && count < 10; zeros--) {
        digits[count++] = '0';
    }
    while (count > 0) {
        put(digits[--count]);
    }
    put(end);
    if (end == '\r') {
        put('\n');
    }
}

/* A market's text, at times with a field too large, bytes changed, or cut. */
static void to_read_csv(void)
{
    market(ASKS);
    typed = 0;
    for (uint32_t j = 0; j < m; j++) {
        field(words(ASKS)[j], j + 1 == m ? '\r' : ',');
    }
    for (uint32_t j = 0; j < m; j++) {
        field(rarely(800) ? 65536 : halves(BAYS)[j], j + 1 == m ? '\r' : ',');
    }
    for (uint32_t i = 0; i < n; i++) {
        field(words(TICKETS)[i], ',');
        field(rarely(2000) ? 99999 : halves(AMOUNTS)[i], ',');
        for (uint32_t j = 0; j < m; j++) {
            if (words(BIDS)[i * m + j] == 0 && below(2) == 0) {
                put(j + 1 == m ? '\r' : ',');
                if (j + 1 == m) {
                    put('\n');
                }
            } else {
                field(words(BIDS)[i * m + j], j + 1 == m ? '\r' : ',');
            }
        }
    }
    if (rarely(4) && typed > 0) {
        static const uint8_t some[] = {'0', '9', ',', '\r', '\n', ' ', ';', 0};

        bytes(CSV)[below(typed)] = some[below(8)];
    }
    lengths[5] = rarely(8) ? below(typed + 1) : typed;
    table_lengths();
}

static uint8_t read_csv(void)
{
    return bay_market_read_csv(LIST(CSV, 5), FILLED);
}

static void to_place_bids(void)
{
    uint32_t fall = pick(1, 4, 60, 1000001), top = pick(4, 60, 3000, 1000001);

    n = below(8) == 0 ? below(N + 2) : below(25);
    m = below(8) == 0 ? below(M + 2) : 1 + below(8);
    if (fixed_m > 0) {
        n = fixed_n, m = fixed_m, top = 1000001, fall = 4000;
    }
    for (uint32_t i = 0; i < n; i++) {
        words(PRICES)[i] = below(top);
        words(FALLS)[i] = below(fall);
        halves(GUEST_FIRST)[i] = (uint16_t)below(32);
        halves(GUEST_SECOND)[i] = (uint16_t)below(32);
    }
    for (uint32_t j = 0; j < m; j++) {
        halves(STATION_FIRST)[j] = (uint16_t)below(32);
        halves(STATION_SECOND)[j] = (uint16_t)below(32);
    }
    if (rarely(8) && n * m > 0) {
        uint32_t fault = below(3), which = next(), off = below(65504);

        if (fault == 0) {
            halves(GUEST_FIRST)[which % n] = (uint16_t)(32 + off);
        } else if (fault == 1) {
            halves(STATION_SECOND)[which % m] = (uint16_t)(32 + off);
        } else {
            words(FALLS)[which % n] = 1000001;
        }
    }
    wrongs(7);
    length(n);
    length(n);
    length(n);
    length(n);
    length(m);
    length(m);
    length(n * m);
}

static uint8_t place_bids(void)
{
    return bay_market_place_bids(LIST(PRICES, 0), LIST(FALLS, 1), LIST(GUEST_FIRST, 2), LIST(GUEST_SECOND, 3),
                                 LIST(STATION_FIRST, 4), LIST(STATION_SECOND, 5), LIST(BIDS, 6));
}

/* An account, now and then at most one above 10^15. */
static uint64_t account(void)
{
    uint32_t kind = below(400), low = next();

    if (kind == 0 && fixed_m == 0) {
        return BAY_MARKET_MAX_ACCOUNT + 1 - low % 3 * (low % 5000000);
    }
    return (uint64_t)(kind < 200 ? 0 : kind % 100) << 32 | low;
}

static void to_post(void)
{
    uint32_t guests, stations, last;

    market(ASKS);
    by = rule();
    guests = n < N ? n + below(N + 1 - n) : n;
    stations = m < M ? m + below(M + 1 - m) : m;
    if (rarely(30)) {
        guests = below(N + 2);
    }
    if (rarely(30)) {
        stations = below(M + 2);
    }
    for (uint32_t i = 0; i < guests; i++) {
        longs(GUESTS)[i] = account();
    }
    for (uint32_t j = 0; j < 2 * stations; j++) {
        longs(ACCOUNTS)[j] = account();
    }
    longs(HOUSE)[0] = account();
    last = rarely(20) ? 4294967295u - below(2) : below(1000);
    who = rarely(30) ? 8 + below(248) : below(8);
    for (uint32_t d = 0; d < 8; d++) {
        words(LAST)[d] = d == who ? last : below(1000);
    }
    round_number = rarely(20) ? last : last + 1;
    wrongs(7);
    market_lengths();
    length(8);
    lengths[7] = guests;
    lengths[8] = stations;
}

static uint8_t post(void)
{
    if (fixed_m > 0) { /* the round again */
        words(LAST)[who] = round_number - 1;
    }
    return bay_market_post((uint8_t)by, MARKET, (uint8_t)who, round_number, LIST(GUESTS, 7), LIST(ACCOUNTS, 8),
                           ONE(HOUSE), LIST(LAST, 6));
}

static const struct {
    const char *name;
    void (*prepare)(void);
    uint8_t (*call)(void);
} functions[] = {
    {"clear", to_clear, clear}, {"clear_efficient", to_clear, clear_efficient},
    {"clear_marked", to_clear_marked, clear_marked}, {"mark", to_mark, mark}, {"explain", to_explain, explain},
    {"try", to_try, try_row}, {"menu", to_menu, menu}, {"gains", to_gains, gains}, {"join", to_join, join},
    {"write", to_write, write}, {"read", to_read, read}, {"read_csv", to_read_csv, read_csv},
    {"place_bids", to_place_bids, place_bids}, {"post", to_post, post},
};
enum { FUNCTIONS = sizeof functions / sizeof *functions };

static uint32_t summed(uint32_t h, uint32_t from, uint32_t to)
{
    for (uint32_t i = from / 4; i < to / 4; i++) {
        h = (h ^ ((const uint32_t *)(const void *)memory)[i]) * 16777619u;
        h ^= h >> 15;
    }
    return h;
}

void begin(uint32_t seed)
{
    uint32_t whole = GAP;

    for (uint32_t t = 0; t < ALL; t++) {
        starts[t] = whole;
        whole += (sizes[t] * rooms[t] + 15) / 16 * 16 + GAP;
    }
    for (uint32_t i = 0; i < sizeof memory; i++) {
        memory[i] = PAINT;
    }
    state = seed;
    calls = written = typed = fixed_n = fixed_m = 0;
}

static uint32_t function;

/* One call more: its answer. */
uint32_t call(void)
{
    for (uint32_t t = 0; t < ALL; t++) {
        lent_bytes[t] = 0;
    }
    calls++;
    function = below(FUNCTIONS);
    functions[function].prepare();
    return functions[function].call();
}

/* Prepares a call of the next function, on a market of that size: 0 after the last. */
uint32_t prepare(uint32_t which, uint32_t guests, uint32_t stations)
{
    if (which == FUNCTIONS) {
        return 0;
    }
    function = which;
    fixed_n = guests;
    fixed_m = stations;
    functions[function].prepare();
    return 1;
}

/* The prepared call so many times: 0 where each was accepted. */
uint32_t repeat(uint32_t count)
{
    uint32_t answers = 0;

    while (count-- > 0) {
        answers |= functions[function].call();
    }
    return answers;
}

const char *name(void)
{
    return functions[function].name;
}

uint32_t sum(void)
{
    uint32_t h = 2166136261u;

    if (calls % 64 == 0) {
        return summed(h, 0, sizeof memory);
    }
    for (uint32_t t = 0; t < ALL; t++) {
        if (lent_bytes[t] > 0) {
            h = summed(h, starts[t], starts[t] + (lent_bytes[t] + 15) / 16 * 16 + GAP);
        }
    }
    return h;
}

#ifndef __wasm__
static double now(void)
{
    struct timespec at;

    clock_gettime(CLOCK_MONOTONIC, &at);
    return (double)at.tv_sec * 1e9 + (double)at.tv_nsec;
}

/* Of each function the time of a call: the least of PASSES over TIMED calls each. */
static int print_times(uint32_t guests, uint32_t stations)
{
    for (uint32_t which = 0; prepare(which, guests, stations); which++) {
        double least = 1e30;
        uint32_t answers = 0;

        for (int pass = 0; pass < PASSES; pass++) {
            double from = now(), took;

            answers |= repeat(TIMED);
            took = (now() - from) / TIMED;
            least = took < least ? took : least;
        }
        printf("%s %.0f\n", name(), least);
        if (answers != 0) {
            fprintf(stderr, "%s is refused\n", name());
            return 1;
        }
    }
    return 0;
}

static uint32_t number(const char *word)
{
    return (uint32_t)strtoul(word, NULL, 10);
}

int main(int count, char **given)
{
    if (count == 5 && strcmp(given[1], "time") == 0) {
        begin(number(given[2]));
        return print_times(number(given[3]), number(given[4]));
    }
    if (count != 3) {
        fprintf(stderr, "usage: calls SEED CALLS, or calls time SEED N M\n");
        return 2;
    }
    begin(number(given[1]));
    for (uint32_t k = 0; k < number(given[2]); k++) {
        uint32_t answer = call();

        printf("%u %s %u %08x\n", (unsigned)k, name(), (unsigned)answer, (unsigned)sum());
    }
    return 0;
}
#endif
