/* A guest's price list: prints the list of Table I's guest 1, and what its worths and three other rows of bids gain.
 *
 *     gcc -I include examples/price_list.c prebuilt/x86_64-linux/libbay_market.a -o price_list
 *     ./price_list
 */
#include "bay_market.h"

#include <inttypes.h>
#include <stdio.h>

#define TABLE_I asks, 5, bays, 5, amounts, 5, tickets, 5, bids, 25, 5
static const uint32_t asks[] = {4, 1, 3, 2, 5}, tickets[] = {1, 2, 3, 4, 5};
static const uint16_t bays[] = {1, 2, 4, 2, 3}, amounts[] = {5, 2, 6, 4, 3};
static const uint32_t bids[] = {0, 4, 0, 5, 2, 2, 0, 5, 1, 0, 7, 5, 0, 4, 0, 6, 4, 0, 3, 0, 0, 0, 2, 3, 5};

int main(void)
{
    const uint32_t worths[] = {0, 4, 0, 5, 2};
    const uint32_t rows[] = {0, 4, 0, 5, 2, 0, 4, 0, 0, 2, 0, 9, 0, 5, 2, 0, 0, 0, 0, 0};
    uint32_t bars[5], prices[5];
    int64_t gains[4];

    if (bay_market_menu(BAY_MARKET_RULE_MEDIAN, TABLE_I, 1, bars, 5, prices, 5) != BAY_MARKET_ACCEPTED
        || bay_market_gains(BAY_MARKET_RULE_MEDIAN, TABLE_I, 1, worths, 5, rows, 20, gains, 4) != BAY_MARKET_ACCEPTED) {
        return 1;
    }
    for (size_t j = 0; j < 5; j++) {
        if (bars[j] != BAY_MARKET_NO_BAR) {
            printf("station %zu from a total of %" PRIu32 " for %" PRIu32 "\n", j + 1, bars[j], prices[j]);
        }
    }
    for (size_t r = 0; r < 4; r++) {
        printf("row %zu gains %" PRId64 "\n", r + 1, gains[r]);
    }
    return 0;
}
