/* Two gates, one market: reads the sheets of two gates, joins them, the first one's guests in front, and clears by
 * rule 1. Prints what ./clear prints, or the refusal.
 *
 *     gcc -I include examples/two_gates.c prebuilt/x86_64-linux/libbay_market.a -o two_gates
 *     ./two_gates examples/gate_north.sheet examples/gate_south.sheet
 */
#include "bay_market.h"

#include <stdio.h>

/* A market in tables of the greatest size, of which n guests and m stations are used. */
struct market {
    uint32_t asks[BAY_MARKET_MAX_STATIONS], tickets[BAY_MARKET_MAX_GUESTS], bids[BAY_MARKET_MAX_BIDS];
    uint16_t bays[BAY_MARKET_MAX_STATIONS], amounts[BAY_MARKET_MAX_GUESTS], n, m;
};

static struct market north, south, both;

/* Reads a sheet; 0, or the refusal's number, or 255 where there is no such file. */
static uint8_t read_gate(const char *path, struct market *gate)
{
    static uint8_t sheet[BAY_MARKET_MAX_SHEET + 1];
    FILE *file = fopen(path, "rb");

    if (file == NULL) {
        perror(path);
        return 255;
    }
    size_t length = fread(sheet, 1, sizeof sheet, file);
    fclose(file);
    return bay_market_read(sheet, length, gate->amounts, BAY_MARKET_MAX_GUESTS, gate->tickets, BAY_MARKET_MAX_GUESTS,
                           gate->asks, BAY_MARKET_MAX_STATIONS, gate->bays, BAY_MARKET_MAX_STATIONS, gate->bids,
                           BAY_MARKET_MAX_BIDS, &gate->n, &gate->m);
}

/* Joins the gates into tables that are lent exactly as long as the joined market's are. */
static uint8_t join_gates(void)
{
    const size_t n = (size_t)north.n + south.n, m = north.m;

    /* more guests than there may be are refused, whatever is lent */
    const size_t lent = n <= BAY_MARKET_MAX_GUESTS ? n : BAY_MARKET_MAX_GUESTS;
    both.n = (uint16_t)lent;
    both.m = north.m;
    return bay_market_join(north.asks, m, north.bays, m, north.amounts, north.n, north.tickets, north.n, north.bids,
                           north.n * m, m, south.asks, south.m, south.bays, south.m, south.amounts, south.n,
                           south.tickets, south.n, south.bids, (size_t)south.n * south.m, south.m, both.asks, m,
                           both.bays, m, both.amounts, lent, both.tickets, lent, both.bids, lent * m);
}

/* Clears the joined market and prints it. */
static uint8_t clear_both(void)
{
    static uint16_t stations[BAY_MARKET_MAX_GUESTS];
    static uint32_t charges[BAY_MARKET_MAX_GUESTS], sold[BAY_MARKET_MAX_STATIONS], cut;
    static uint64_t paid[BAY_MARKET_MAX_STATIONS], margin;
    const size_t n = both.n, m = both.m;
    uint8_t answer = bay_market_clear(BAY_MARKET_RULE_MEDIAN, both.asks, m, both.bays, m, both.amounts, n, both.tickets,
                                      n, both.bids, n * m, m, stations, n, charges, n, sold, m, paid, m, &cut, &margin);

    if (answer == BAY_MARKET_ACCEPTED) {
        printf("cut %u\n", (unsigned)cut);
        for (size_t i = 0; i < n; i++) {
            printf("guest %zu station %u charge %u\n", i + 1, (unsigned)stations[i], (unsigned)charges[i]);
        }
        for (size_t j = 0; j < m; j++) {
            printf("station %zu sold %u paid %llu\n", j + 1, (unsigned)sold[j], (unsigned long long)paid[j]);
        }
        printf("margin %llu\n", (unsigned long long)margin);
    }
    return answer;
}

int main(int count, char **words)
{
    if (count != 3) {
        fputs("usage: two_gates NORTH.sheet SOUTH.sheet\n", stderr);
        return 2;
    }
    uint8_t answer = read_gate(words[1], &north);
    if (answer == BAY_MARKET_ACCEPTED) {
        answer = read_gate(words[2], &south);
    }
    if (answer == BAY_MARKET_ACCEPTED) {
        answer = join_gates();
    }
    if (answer == BAY_MARKET_ACCEPTED) {
        answer = clear_both();
    }
    if (answer != BAY_MARKET_ACCEPTED) {
        fprintf(stderr, "refused %u: %s\n", (unsigned)answer, bay_market_refusal_text(answer));
        return 1;
    }
    return 0;
}
