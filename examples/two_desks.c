/* Two desks, one ledger: posts case E of document 01 as round 1 of desk 0, as the same once more, which is refused, and
 * as round 1 of desk 1. Prints each answer, and the ledger.
 *
 *     gcc -I include examples/two_desks.c prebuilt/x86_64-linux/libbay_market.a -o two_desks
 *     ./two_desks
 */
#include "bay_market.h"

#include <stdio.h>

/* A ledger of two guests and two stations, all zeros: empty. */
static uint64_t guests[2], house;
static struct bay_market_station_account stations[2];
static uint32_t last[BAY_MARKET_MAX_DESKS];

/* Posts case E by rule 1 as a round of a desk, and prints the answer. */
static void post(uint8_t desk, uint32_t round)
{
    const uint32_t asks[] = {2, 6}, tickets[] = {1, 2}, bids[] = {8, 0, 8, 0};
    const uint16_t bays[] = {1, 1}, amounts[] = {3, 3};
    uint8_t answer = bay_market_post(BAY_MARKET_RULE_MEDIAN, asks, 2, bays, 2, amounts, 2, tickets, 2, bids, 4, 2, desk,
                                     round, guests, 2, stations, 2, &house, last, BAY_MARKET_MAX_DESKS);

    printf("desk %u round %u: ", (unsigned)desk, (unsigned)round);
    if (answer == BAY_MARKET_ACCEPTED) {
        puts("posted");
    } else {
        printf("refused %u: %s\n", (unsigned)answer, bay_market_refusal_text(answer));
    }
}

int main(void)
{
    post(0, 1);
    post(0, 1);
    post(1, 1);
    for (size_t i = 0; i < 2; i++) {
        printf("guest %zu owes %llu\n", i + 1, (unsigned long long)guests[i]);
    }
    for (size_t j = 0; j < 2; j++) {
        printf("station %zu sold %llu paid %llu\n", j + 1, (unsigned long long)stations[j].sold,
               (unsigned long long)stations[j].paid);
    }
    printf("house %llu\n", (unsigned long long)house);
    for (size_t desk = 0; desk < 2; desk++) {
        printf("desk %zu last round %u\n", desk, (unsigned)last[desk]);
    }
    return 0;
}
