// The header from C++: empty vectors, whose data() may be null, a table that is cleared by both mechanisms, explained,
// handed in and written, bids that are placed, and texts.
#include "bay_market.h"

#include <cstdio>
#include <string>
#include <vector>

static_assert(sizeof(bay_market_station_account) == 16, "two accounts of 64 bits");

int main()
{
    std::vector<std::uint32_t> asks{2, 6}, tickets, bids, charges, sold(2, 77);
    std::vector<std::uint16_t> bays{1, 1}, amounts, stations;
    std::vector<std::uint64_t> paid(2, 77);
    std::uint32_t cut = 77;
    std::uint64_t margin = 77;

    const auto clear_by = [&](auto mechanism) {
        return mechanism(BAY_MARKET_RULE_MEDIAN, asks.data(), asks.size(), bays.data(), bays.size(), amounts.data(), amounts.size(),
                         tickets.data(), tickets.size(), bids.data(), bids.size(), asks.size(), stations.data(),
                         stations.size(), charges.data(), charges.size(), sold.data(), sold.size(), paid.data(),
                         paid.size(), &cut, &margin);
    };
    const auto clear = [&] { return clear_by(bay_market_clear); };
    bool good = clear() == BAY_MARKET_ACCEPTED && cut == 6 && margin == 0 && sold[0] == 0 && paid[1] == 0;
    amounts = {3, 3};
    bids = {8, 0, 8, 0};
    good = good && clear() == BAY_MARKET_LENGTHS_DIFFER;
    tickets = {9, 4};
    good = good && clear() == BAY_MARKET_LENT_LENGTHS;
    stations.resize(2);
    charges.resize(2);
    good = good && clear() == BAY_MARKET_ACCEPTED && charges[1] == 24 && paid[0] == 18 && margin == 6;
    bids = {8, 0, 9, 0};
    good = good && clear_by(bay_market_clear_efficient) == BAY_MARKET_ACCEPTED && stations[0] == 0 && stations[1] == 1;
    good = good && charges[1] == 24 && paid[0] == 18 && margin == 6;
    tickets[1] = 9;
    good = good && clear_by(bay_market_clear_efficient) == BAY_MARKET_TICKETS_REPEAT && margin == 6;
    tickets[1] = 4;
    bids = {8, 0, 8, 0};
    std::vector<std::uint8_t> codes, reasons(2, 77);
    const auto explain = [&] {
        return bay_market_explain(BAY_MARKET_RULE_MEDIAN, asks.data(), asks.size(), bays.data(), bays.size(),
                                  amounts.data(), amounts.size(), tickets.data(), tickets.size(), bids.data(),
                                  bids.size(), asks.size(), codes.data(), codes.size(), stations.data(),
                                  stations.size(), charges.data(), charges.size(), reasons.data(), reasons.size());
    };
    good = good && explain() == BAY_MARKET_LENT_LENGTHS && reasons[0] == 77;
    codes.resize(4, 77);
    good = good && explain() == BAY_MARKET_ACCEPTED && stations[0] == 0 && stations[1] == 1 && charges[1] == 24;
    good = good && codes == std::vector<std::uint8_t>{BAY_MARKET_OUTBID, BAY_MARKET_NO_BID, BAY_MARKET_HELD, BAY_MARKET_NO_BID};
    good = good && reasons[0] == BAY_MARKET_OUTBID && reasons[1] == 0 && charges[0] == 0;
    good = good && std::string(bay_market_code_text(reasons[0])) == "outbid";
    std::vector<std::uint8_t> places;
    std::vector<std::uint32_t> floors(2, 77);
    const auto clear_marked = [&] {
        return bay_market_clear_marked(BAY_MARKET_RULE_MEDIAN, asks.data(), asks.size(), bays.data(), bays.size(),
                                       amounts.data(), amounts.size(), tickets.data(), tickets.size(), bids.data(),
                                       bids.size(), asks.size(), stations.data(), stations.size(), charges.data(),
                                       charges.size(), sold.data(), sold.size(), paid.data(), paid.size(),
                                       places.data(), places.size(), floors.data(), floors.size(), &cut, &margin);
    };
    std::uint8_t correct = 77;
    const auto mark = [&] {
        return bay_market_mark(BAY_MARKET_RULE_MEDIAN, asks.data(), asks.size(), bays.data(), bays.size(),
                               amounts.data(), amounts.size(), tickets.data(), tickets.size(), bids.data(),
                               bids.size(), asks.size(), stations.data(), stations.size(), charges.data(),
                               charges.size(), sold.data(), sold.size(), paid.data(), paid.size(), places.data(),
                               places.size(), floors.data(), floors.size(), cut, margin, &correct);
    };
    good = good && clear_marked() == BAY_MARKET_LENT_LENGTHS && floors[0] == 77;
    good = good && mark() == BAY_MARKET_LENT_LENGTHS && correct == 77;
    places.resize(4, 77);
    good = good && clear_marked() == BAY_MARKET_ACCEPTED && places == std::vector<std::uint8_t>{0, 0, 1, 0};
    good = good && floors == std::vector<std::uint32_t>{24, 0} && charges[1] == 24 && cut == 6 && margin == 6;
    good = good && mark() == BAY_MARKET_ACCEPTED && correct == 1;
    places[2] = 2;
    good = good && mark() == BAY_MARKET_ACCEPTED && correct == 0;
    std::vector<std::uint32_t> bars(2, 77), list_prices;
    const auto menu = [&] {
        return bay_market_menu(BAY_MARKET_RULE_MEDIAN, asks.data(), asks.size(), bays.data(), bays.size(),
                               amounts.data(), amounts.size(), tickets.data(), tickets.size(), bids.data(),
                               bids.size(), asks.size(), 1, bars.data(), bars.size(), list_prices.data(),
                               list_prices.size());
    };
    good = good && menu() == BAY_MARKET_LENT_LENGTHS && bars[0] == 77;
    list_prices.resize(2, 77);
    good = good && menu() == BAY_MARKET_ACCEPTED && bars == std::vector<std::uint32_t>{25, BAY_MARKET_NO_BAR};
    good = good && list_prices == std::vector<std::uint32_t>{24, 0};
    const std::vector<std::uint32_t> worths{9, 0}, rows{9, 0, 8, 0, 0, 0};
    std::vector<std::int64_t> gains;
    const auto gain = [&] {
        return bay_market_gains(BAY_MARKET_RULE_MEDIAN, asks.data(), asks.size(), bays.data(), bays.size(),
                                amounts.data(), amounts.size(), tickets.data(), tickets.size(), bids.data(),
                                bids.size(), asks.size(), 1, worths.data(), worths.size(), rows.data(), rows.size(),
                                gains.data(), gains.size());
    };
    good = good && gain() == BAY_MARKET_LENT_LENGTHS;
    gains.resize(3, 77);
    good = good && gain() == BAY_MARKET_ACCEPTED && gains == std::vector<std::int64_t>{3, 0, 0};
    std::vector<std::uint8_t> sheet;
    std::size_t length = 77;
    const auto write = [&] {
        return bay_market_write(asks.data(), asks.size(), bays.data(), bays.size(), amounts.data(), amounts.size(),
                                tickets.data(), tickets.size(), bids.data(), bids.size(), asks.size(), sheet.data(),
                                sheet.size(), &length);
    };
    good = good && write() == BAY_MARKET_OUTPUT_TOO_SHORT && length == 77;
    sheet.resize(BAY_MARKET_MAX_SHEET, 77);
    good = good && write() == BAY_MARKET_ACCEPTED && length == 38;
    good = good && sheet[0] == 2 && sheet[18] == 9 && sheet[37] == 0 && sheet[38] == 77;
    std::vector<std::uint32_t> prices, falls;
    std::vector<std::uint16_t> guests, stops{3, 4};
    const auto place = [&] {
        return bay_market_place_bids(prices.data(), prices.size(), falls.data(), falls.size(), guests.data(),
                                     guests.size(), guests.data(), guests.size(), stops.data(), 1, stops.data() + 1, 1,
                                     bids.data(), bids.size());
    };
    bids.clear();
    good = good && place() == BAY_MARKET_ACCEPTED;
    guests = {0, 31};
    prices = {60, 2000};
    falls = {1, 2};
    good = good && place() == BAY_MARKET_LENGTHS_DIFFER;
    bids = {77, 77};
    good = good && place() == BAY_MARKET_ACCEPTED && bids[0] == 10 && bids[1] == 2000 - 2 * 388;
    guests[1] = BAY_MARKET_MAX_CELL + 1;
    good = good && place() == BAY_MARKET_CELL_OFF_GRID && bids[0] == 10;
    good = good && std::string(bay_market_refusal_text(BAY_MARKET_BOOK_SIZE)).find("ledger") != std::string::npos;
    std::puts(good ? "C++ test: all as expected" : "C++ test failed");
    return good ? 0 : 1;
}
