/* Marking a submitted clearing: clears case G of document 01 by rule 1 with its places and floors, prints these, and
 * marks what three firms hand in: the same clearing, one that charges the winner its own bid, and one with a list too
 * short.
 *
 *     gcc -I include examples/marking.c prebuilt/x86_64-linux/libbay_market.a -o marking
 *     ./marking
 */
#include "bay_market.h"

#include <stdio.h>

static const uint32_t asks[] = {2, 6}, tickets[] = {1, 2}, bids[] = {9, 0, 10, 0};
static const uint16_t bays[] = {1, 1}, amounts[] = {3, 2};

/* A whole clearing of two guests and two stations. */
struct submission {
    uint16_t stations[2];
    uint32_t charges[2], sold[2];
    uint64_t paid[2];
    uint8_t places[4];
    uint32_t floors[2], cut;
    uint64_t margin;
};

/* Marks what a firm hands in, with so many floors, and prints the mark or the refusal. */
static void mark(int firm, const struct submission *handed, size_t floors_len)
{
    uint8_t correct;
    uint8_t answer = bay_market_mark(BAY_MARKET_RULE_MEDIAN, asks, 2, bays, 2, amounts, 2, tickets, 2, bids, 4, 2,
                                     handed->stations, 2, handed->charges, 2, handed->sold, 2, handed->paid, 2,
                                     handed->places, 4, handed->floors, floors_len, handed->cut, handed->margin,
                                     &correct);

    if (answer == BAY_MARKET_ACCEPTED) {
        printf("firm %d: %s\n", firm, correct ? "right" : "wrong");
    } else {
        printf("firm %d: refused %u: %s\n", firm, (unsigned)answer, bay_market_refusal_text(answer));
    }
}

int main(void)
{
    struct submission full;
    uint8_t answer = bay_market_clear_marked(BAY_MARKET_RULE_MEDIAN, asks, 2, bays, 2, amounts, 2, tickets, 2, bids, 4,
                                             2, full.stations, 2, full.charges, 2, full.sold, 2, full.paid, 2,
                                             full.places, 4, full.floors, 2, &full.cut, &full.margin);

    if (answer != BAY_MARKET_ACCEPTED) {
        fprintf(stderr, "refused %u: %s\n", (unsigned)answer, bay_market_refusal_text(answer));
        return 1;
    }
    for (size_t i = 0; i < 2; i++) {
        for (size_t j = 0; j < 2; j++) {
            if (full.places[i * 2 + j] == 1) {
                printf("guest %zu holds a place at station %zu\n", i + 1, j + 1);
            }
        }
    }
    for (size_t j = 0; j < 2; j++) {
        printf("station %zu floor %u\n", j + 1, (unsigned)full.floors[j]);
    }
    struct submission own_bid = full;
    own_bid.charges[0] = bids[0] * amounts[0];
    own_bid.margin = own_bid.charges[0] - full.cut * amounts[0];
    mark(1, &full, 2);
    mark(2, &own_bid, 2);
    mark(3, &full, 1);
    return 0;
}
