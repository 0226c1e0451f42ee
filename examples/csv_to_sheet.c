/* A comma-separated market, as a spreadsheet has it: reads its text and writes its sheet to standard output, or tells the
 * refusal. ./clear clears the sheet, and another desk reads it.
 *
 *     gcc -I include examples/csv_to_sheet.c prebuilt/x86_64-linux/libbay_market.a -o csv_to_sheet
 *     ./csv_to_sheet examples/fleet.csv >fleet.sheet
 */
#include "bay_market.h"

#include <stdio.h>

/* one byte more than a market has, so that a longer text is refused */
static uint8_t text[BAY_MARKET_MAX_TEXT + 1], sheet[BAY_MARKET_MAX_SHEET];
static uint32_t asks[BAY_MARKET_MAX_STATIONS], tickets[BAY_MARKET_MAX_GUESTS], bids[BAY_MARKET_MAX_BIDS];
static uint16_t bays[BAY_MARKET_MAX_STATIONS], amounts[BAY_MARKET_MAX_GUESTS], n, m;

int main(int count, char **words)
{
    FILE *file = count == 2 ? fopen(words[1], "rb") : NULL;
    size_t length = 0;

    if (file == NULL) {
        fputs("usage: csv_to_sheet FILE.csv\n", stderr);
        return 2;
    }
    size_t text_len = fread(text, 1, sizeof text, file);
    fclose(file);
    /* the order is the readers': amounts, tickets, asks, bays, bids */
    uint8_t answer = bay_market_read_csv(text, text_len, amounts, BAY_MARKET_MAX_GUESTS, tickets, BAY_MARKET_MAX_GUESTS,
                                         asks, BAY_MARKET_MAX_STATIONS, bays, BAY_MARKET_MAX_STATIONS, bids,
                                         BAY_MARKET_MAX_BIDS, &n, &m);
    if (answer == BAY_MARKET_ACCEPTED) {
        answer = bay_market_write(asks, m, bays, m, amounts, n, tickets, n, bids, (size_t)n * m, m, sheet, sizeof sheet,
                                  &length);
    }
    if (answer != BAY_MARKET_ACCEPTED) {
        fprintf(stderr, "refused %u: %s\n", (unsigned)answer, bay_market_refusal_text(answer));
        return 1;
    }
    return fwrite(sheet, 1, length, stdout) == length ? 0 : 3;
}
