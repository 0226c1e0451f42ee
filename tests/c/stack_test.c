/* What a call takes of the stack, the largest market's too, is at most what the header says: each call runs on a stack
 * of so many bytes above a page that cannot be touched, and what it touched is measured. */
#define _GNU_SOURCE
#include "bay_market.h"

#include <stdio.h>
#include <string.h>
#include <sys/mman.h>
#include <ucontext.h>

#define GUARD 4096
#define PAINT 0xA5

static uint16_t amounts[BAY_MARKET_MAX_GUESTS], bays[BAY_MARKET_MAX_STATIONS], n, m;
static uint32_t asks[BAY_MARKET_MAX_STATIONS], tickets[BAY_MARKET_MAX_GUESTS], bids[BAY_MARKET_MAX_BIDS], cut;
static uint32_t last[BAY_MARKET_MAX_DESKS];
static uint32_t prices[BAY_MARKET_MAX_GUESTS], falls[BAY_MARKET_MAX_GUESTS];
static uint16_t guest_cells[BAY_MARKET_MAX_GUESTS], station_cells[BAY_MARKET_MAX_STATIONS];
static uint8_t sheet[BAY_MARKET_MAX_SHEET];
static char text[BAY_MARKET_MAX_TEXT + 1];
static size_t sheet_len, text_len;
static uint16_t stations[BAY_MARKET_MAX_GUESTS];
static uint32_t charges[BAY_MARKET_MAX_GUESTS], sold[BAY_MARKET_MAX_STATIONS];
static uint64_t paid[BAY_MARKET_MAX_STATIONS], margin, guests[BAY_MARKET_MAX_GUESTS], house;
static struct bay_market_station_account accounts[BAY_MARKET_MAX_STATIONS];
static uint8_t codes[BAY_MARKET_MAX_BIDS], reasons[BAY_MARKET_MAX_GUESTS], changes[BAY_MARKET_MAX_GUESTS];
static int64_t gain, other_gain, gains[BAY_MARKET_MAX_GUESTS];
static uint32_t bars[BAY_MARKET_MAX_STATIONS], list_prices[BAY_MARKET_MAX_STATIONS];
static uint8_t places[BAY_MARKET_MAX_BIDS], correct;
static uint32_t floors[BAY_MARKET_MAX_STATIONS];
static uint16_t joined_amounts[BAY_MARKET_MAX_GUESTS], joined_bays[BAY_MARKET_MAX_STATIONS];
static uint32_t joined_asks[BAY_MARKET_MAX_STATIONS], joined_tickets[BAY_MARKET_MAX_GUESTS];
static uint32_t joined_bids[BAY_MARKET_MAX_BIDS];
static uint8_t answer;

static void none(void)
{
}

static void call_read(void)
{
    answer = bay_market_read(sheet, sheet_len, amounts, BAY_MARKET_MAX_GUESTS, tickets, BAY_MARKET_MAX_GUESTS,
                             asks, BAY_MARKET_MAX_STATIONS, bays, BAY_MARKET_MAX_STATIONS, bids, BAY_MARKET_MAX_BIDS,
                             &n, &m);
}

/* It reads the sheet's market as text. */
static void call_read_csv(void)
{
    answer = bay_market_read_csv((const uint8_t *)text, text_len, amounts, BAY_MARKET_MAX_GUESTS,
                                 tickets, BAY_MARKET_MAX_GUESTS, asks, BAY_MARKET_MAX_STATIONS,
                                 bays, BAY_MARKET_MAX_STATIONS, bids, BAY_MARKET_MAX_BIDS, &n, &m);
}

static void call_write(void)
{
    answer = bay_market_write(asks, m, bays, m, amounts, n, tickets, n, bids, (size_t)n * m, m, sheet, sizeof sheet,
                              &sheet_len);
}

static void call_clear(void)
{
    answer = bay_market_clear(2, asks, m, bays, m, amounts, n, tickets, n, bids, (size_t)n * m, m, stations, n,
                              charges, n, sold, m, paid, m, &cut, &margin);
}

static void call_clear_efficient(void)
{
    answer = bay_market_clear_efficient(2, asks, m, bays, m, amounts, n, tickets, n, bids, (size_t)n * m, m,
                                        stations, n, charges, n, sold, m, paid, m, &cut, &margin);
}

static void call_explain(void)
{
    answer = bay_market_explain(2, asks, m, bays, m, amounts, n, tickets, n, bids, (size_t)n * m, m, codes,
                                (size_t)n * m, stations, n, charges, n, reasons, n);
}

/* The last guest with the first one's row, its own bids being its worths. */
static void call_try(void)
{
    answer = bay_market_try(2, asks, m, bays, m, amounts, n, tickets, n, bids, (size_t)n * m, m, n,
                            bids + (size_t)(n - 1) * m, m, bids, m, changes, n, &gain, &other_gain);
}

static void call_menu(void)
{
    answer = bay_market_menu(2, asks, m, bays, m, amounts, n, tickets, n, bids, (size_t)n * m, m, n, bars, m,
                             list_prices, m);
}

/* The last guest with every guest's row, its own bids being its worths. */
static void call_gains(void)
{
    answer = bay_market_gains(2, asks, m, bays, m, amounts, n, tickets, n, bids, (size_t)n * m, m, n,
                              bids + (size_t)(n - 1) * m, m, bids, (size_t)n * m, gains, n);
}

static void call_clear_marked(void)
{
    answer = bay_market_clear_marked(2, asks, m, bays, m, amounts, n, tickets, n, bids, (size_t)n * m, m, stations, n,
                                     charges, n, sold, m, paid, m, places, (size_t)n * m, floors, m, &cut, &margin);
}

/* It goes after the call that gives what is handed in. */
static void call_mark(void)
{
    answer = bay_market_mark(2, asks, m, bays, m, amounts, n, tickets, n, bids, (size_t)n * m, m, stations, n, charges,
                             n, sold, m, paid, m, places, (size_t)n * m, floors, m, cut, margin, &correct);
}

/* The market's two halves. */
static void call_join(void)
{
    const size_t half = n / 2, rest = n - half;

    answer = bay_market_join(asks, m, bays, m, amounts, half, tickets, half, bids, half * m, m, asks, m, bays, m,
                             amounts + half, rest, tickets + half, rest, bids + half * m, rest * m, m, joined_asks, m,
                             joined_bays, m, joined_amounts, n, joined_tickets, n, joined_bids, (size_t)n * m);
}

static void call_post(void)
{
    answer = bay_market_post(2, asks, m, bays, m, amounts, n, tickets, n, bids, (size_t)n * m, m, 0, last[0] + 1,
                             guests, n, accounts, m, &house, last, BAY_MARKET_MAX_DESKS);
}

/* It goes after the calls on the market, whose bids it writes over. */
static void call_place_bids(void)
{
    answer = bay_market_place_bids(prices, n, falls, n, guest_cells, n, guest_cells, n, station_cells, m,
                                   station_cells, m, bids, (size_t)n * m);
}

/* How many bytes a call touches of a stack of this size. */
static size_t depth(void (*call)(void), size_t size)
{
    static ucontext_t here, there;
    uint8_t *memory = mmap(NULL, GUARD + size, PROT_READ | PROT_WRITE, MAP_PRIVATE | MAP_ANONYMOUS, -1, 0);
    uint8_t *stack = memory + GUARD;
    size_t untouched = 0;

    if (memory == MAP_FAILED || mprotect(memory, GUARD, PROT_NONE) != 0) {
        perror("stack");
        return SIZE_MAX;
    }
    memset(stack, PAINT, size);
    getcontext(&there);
    there.uc_stack.ss_sp = stack;
    there.uc_stack.ss_size = size;
    there.uc_link = &here;
    makecontext(&there, call, 0);
    swapcontext(&here, &there);
    while (untouched < size && stack[untouched] == PAINT) {
        untouched++;
    }
    munmap(memory, GUARD + size);
    return size - untouched;
}

/* The largest sheet, full of candidates; `spread` moves the bids apart, and tickets fall where it is even. */
static void write_sheet(uint32_t spread)
{
    uint8_t *at = sheet;
    uint32_t value = 1;

    *at++ = BAY_MARKET_MAX_GUESTS, *at++ = 0, *at++ = BAY_MARKET_MAX_STATIONS, *at++ = 0;
    for (int station = 0; station < BAY_MARKET_MAX_STATIONS; station++) {
        *at++ = (uint8_t)station, *at++ = 0, *at++ = 0, *at++ = 0;
        *at++ = (uint8_t)(1 + station * 4), *at++ = 0;
    }
    for (int guest = 0; guest < BAY_MARKET_MAX_GUESTS; guest++) {
        *at++ = (uint8_t)(1 + guest), *at++ = 0;
        *at++ = (uint8_t)(spread % 2 == 0 ? UINT8_MAX - guest : guest), *at++ = 0, *at++ = 0, *at++ = 0;
        memset(at, 0xFF, BAY_MARKET_MAX_STATIONS / 8);
        at += BAY_MARKET_MAX_STATIONS / 8;
        for (int station = 0; station < BAY_MARKET_MAX_STATIONS; station++) {
            value = value * 1103515245u + 12345u;
            uint32_t bid = 20 + (value >> 8) % spread;
            *at++ = (uint8_t)bid, *at++ = (uint8_t)(bid >> 8), *at++ = (uint8_t)(bid >> 16), *at++ = 0;
        }
    }
    sheet_len = (size_t)(at - sheet);
}

static void put_field(unsigned long value, int last)
{
    text_len += (size_t)snprintf(text + text_len, sizeof text - text_len, "%010lu%s", value, last ? "\r\n" : ",");
}

/* The market of the tables as the longest text: every field has ten digits. */
static void write_text(void)
{
    text_len = 0;
    for (int j = 0; j < m; j++) {
        put_field(asks[j], j + 1 == m);
    }
    for (int j = 0; j < m; j++) {
        put_field(bays[j], j + 1 == m);
    }
    for (int i = 0; i < n; i++) {
        put_field(tickets[i], 0);
        put_field(amounts[i], 0);
        for (int j = 0; j < m; j++) {
            put_field(bids[i * m + j], j + 1 == m);
        }
    }
}

/* Guests and stations from one end of the grid to the other; `spread` moves prices and falls. */
static void state_places(uint32_t spread)
{
    for (uint32_t guest = 0; guest < BAY_MARKET_MAX_GUESTS; guest++) {
        prices[guest] = spread * guest % (BAY_MARKET_MAX_PRICE + 1);
        falls[guest] = prices[guest] / (1 + guest);
        guest_cells[guest] = (uint16_t)(guest % (BAY_MARKET_MAX_CELL + 1));
    }
    for (uint32_t station = 0; station < BAY_MARKET_MAX_STATIONS; station++) {
        station_cells[station] = (uint16_t)(BAY_MARKET_MAX_CELL - station % (BAY_MARKET_MAX_CELL + 1));
    }
}

int main(void)
{
    static const struct {
        const char *name;
        void (*call)(void);
        size_t allowed;
    } calls[] = {{"read", call_read, BAY_MARKET_MAX_STACK}, {"read_csv", call_read_csv, BAY_MARKET_MAX_STACK_READ_CSV},
                 {"write", call_write, BAY_MARKET_MAX_STACK}, {"clear", call_clear, BAY_MARKET_MAX_STACK},
                 {"clear_efficient", call_clear_efficient, BAY_MARKET_MAX_STACK},
                 {"explain", call_explain, BAY_MARKET_MAX_STACK}, {"try", call_try, BAY_MARKET_MAX_STACK_TRY},
                 {"menu", call_menu, BAY_MARKET_MAX_STACK}, {"gains", call_gains, BAY_MARKET_MAX_STACK},
                 {"clear_marked", call_clear_marked, BAY_MARKET_MAX_STACK},
                 {"mark", call_mark, BAY_MARKET_MAX_STACK},
                 {"join", call_join, BAY_MARKET_MAX_STACK}, {"post", call_post, BAY_MARKET_MAX_STACK},
                 {"place_bids", call_place_bids, BAY_MARKET_MAX_STACK}};
    size_t most = 0, most_csv = 0, most_try = 0;

    for (uint32_t spread = 1; spread <= 900000; spread *= 30) {
        write_sheet(spread);
        state_places(spread);
        call_read();
        write_text();
        for (size_t i = 0; i < sizeof calls / sizeof *calls; i++) {
            answer = 255;
            size_t taken = depth(calls[i].call, calls[i].allowed) - depth(none, calls[i].allowed);
            size_t *so_far = calls[i].call == call_read_csv ? &most_csv
                             : calls[i].call == call_try ? &most_try : &most;
            if (answer != BAY_MARKET_ACCEPTED) {
                fprintf(stderr, "%s: refused %d\n", calls[i].name, answer);
                return 1;
            }
            if (calls[i].call == call_mark && correct != 1) {
                fprintf(stderr, "mark: what clear_marked gives is not passed\n");
                return 1;
            }
            if (taken > *so_far) {
                *so_far = taken;
            }
        }
    }
    printf("stack test: a call took at most %zu bytes of %d, one of read_csv %zu of %d, one of try %zu of %d\n", most,
           BAY_MARKET_MAX_STACK, most_csv, BAY_MARKET_MAX_STACK_READ_CSV, most_try, BAY_MARKET_MAX_STACK_TRY);
    return 0;
}
