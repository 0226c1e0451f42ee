/* Clears a market, tells one guest why it wins or loses, and posts the round to a book.
 *
 *     cc -Iinclude examples/one_guest.c prebuilt/$(uname -m)-linux/libbay_market.a -o one_guest
 *     ./one_guest examples/evening.sheet 24
 */
#include <bay_market.h>
#include <stdio.h>
#include <stdlib.h>

static struct bay_market_market market;
static struct bay_market_results cleared;
static struct bay_market_explanation told;
static struct bay_market_ledger book;
static uint8_t sheet[BAY_MARKET_MAX_SHEET + 1]; /* a longer file fills it, and is refused */

int main(int words, char **word)
{
    if (words != 3) return fputs("usage: one_guest FILE GUEST\n", stderr), 2;
    FILE *file = fopen(word[1], "rb");
    if (file == NULL) return perror(word[1]), 2;
    size_t i = strtoul(word[2], NULL, 10) - 1;
    uint8_t rule = BAY_MARKET_RULE_MEDIAN;

    uint8_t answer = bay_market_read_tables(sheet, fread(sheet, 1, sizeof sheet, file), &market);
    struct bay_market_tables tables = bay_market_tables_of(&market);
    if (!answer) answer = bay_market_clear_tables(rule, &tables, &cleared);
    if (!answer) answer = bay_market_explain_tables(rule, &tables, &told);
    if (!answer) answer = bay_market_post_tables(rule, &tables, 0, 1, &book);
    if (answer) return fprintf(stderr, "refused %u: %s\n", answer, bay_market_refusal_text(answer)), 1;
    if (i >= tables.guests) return fprintf(stderr, "no such guest: there are %zu\n", tables.guests), 2;

    printf("cut %u margin %llu\nguest %zu ", cleared.cut, (unsigned long long)cleared.margin, i + 1);
    if (told.stations[i]) printf("wins station %u charge %u\n", told.stations[i], told.charges[i]);
    else printf("loses: %s\n", bay_market_code_text(told.reasons[i]));
    for (size_t j = 0; j < tables.stations; j++)
        printf("at station %zu: %s\n", j + 1, bay_market_code_text(told.codes[i * tables.stations + j]));
    printf("posted: guest %zu owes %llu, the house has %llu\n", i + 1, (unsigned long long)book.guests[i],
           (unsigned long long)book.house);
    return 0;
}
