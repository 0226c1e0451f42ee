// bay_market.hpp: every function gives what the one over structs gives, from vectors, arrays and parts of them; what is
// refused is thrown.
#include "bay_market.hpp"

#include <algorithm>
#include <array>
#include <cstdio>
#include <string>

namespace {

int failures = 0;

void expect(bool holds, const char *what)
{
    if (!holds) {
        std::fprintf(stderr, "failed: %s\n", what);
        failures++;
    }
}

template <class Call> void refused(bay_market_refusal number, Call call, const char *what)
{
    try {
        call();
        expect(false, what);
    } catch (const bay_market::refusal &thrown) {
        expect(thrown.number() == number, what);
        expect(std::string(thrown.what()) == bay_market_refusal_text(static_cast<std::uint8_t>(number)), "its text");
    }
}

template <class One, class Other> bool starts(const One &room, const Other &list, std::size_t count)
{
    return list.size() == count && std::equal(list.begin(), list.end(), std::begin(room));
}

const bay_market::market market{{2, 6}, {1, 4}, {3, 2, 3}, {5, 7, 1}, {8, 0, 10, 1, 8, 3}};
const bay_market_tables lent{3, 2, market.asks.data(), market.bays.data(), market.amounts.data(),
                             market.tickets.data(), market.bids.data()};
constexpr std::size_t n = 3, m = 2;

void test_read_and_write()
{
    const std::vector<std::uint8_t> sheet = bay_market::write(market);
    std::vector<std::uint8_t> room(BAY_MARKET_MAX_SHEET);
    std::size_t length = 0;
    expect(bay_market_write_tables(&lent, room.data(), room.size(), &length) == 0 && starts(room, sheet, length), "a sheet");
    const auto same = [](const bay_market::market &one) {
        return one.asks == market.asks && one.bays == market.bays && one.amounts == market.amounts
               && one.tickets == market.tickets && one.bids == market.bids;
    };
    expect(same(bay_market::read(sheet)), "a sheet is read");
    expect(same(bay_market::read_csv("2,6\r\n1,4\r\n5,3,8,\r\n7,2,10,1\r\n1,3,8,3\r\n")), "a text is read");
    refused(BAY_MARKET_SHEET_ENDS, [&] { bay_market::read(std::span(sheet).first(sheet.size() - 1)); }, "a cut sheet");
    refused(BAY_MARKET_MALFORMED_TEXT, [] { bay_market::read_csv(""); }, "no text");
}

void test_places()
{
    const std::array<std::uint32_t, 3> prices{500, 400, 300}, falls{2, 3, 4};
    const std::uint16_t first[] = {3, 0, 7}, second[] = {4, 1, 5}, stops[] = {0, 1, 2, 6};
    const auto stations = std::span(stops);
    const bay_market::places places{prices, falls, first, second, stations.first(2), stations.last(2)};
    const bay_market_places same{n, m, prices.data(), falls.data(), first, second, stops, stops + 2};
    std::array<std::uint32_t, n * m> bids{};
    expect(bay_market_place_bids_tables(&same, bids.data()) == 0, "placed");
    expect(starts(bids, bay_market::place_bids(places), n * m), "placed bids");
    refused(BAY_MARKET_LENGTHS_DIFFER, [&] { bay_market::place_bids({prices, falls, first, stations, stops, stops}); }, "5");
}

void test_join()
{
    const bay_market::market second{{2, 6}, {1, 4}, {4, 1}, {6, 2}, {9, 4, 0, 7}};
    const bay_market::market joined = bay_market::join(market, second);
    expect(joined.asks == market.asks && joined.bays == market.bays, "the stations of both");
    expect(joined.amounts == std::vector<std::uint16_t>{3, 2, 3, 4, 1}, "the amounts of both");
    expect(joined.tickets == std::vector<std::uint32_t>{5, 7, 1, 6, 2}, "the tickets of both");
    expect(joined.bids == std::vector<std::uint32_t>{8, 0, 10, 1, 8, 3, 9, 4, 0, 7}, "the bids of both");
    refused(BAY_MARKET_TICKET_IN_BOTH, [] { bay_market::join(market, market); }, "a market with itself");
}

bool same_clearing(const bay_market::clearing &one, const bay_market_results &other)
{
    return one.cut == other.cut && one.margin == other.margin && starts(other.stations, one.stations, n)
           && starts(other.charges, one.charges, n) && starts(other.sold, one.sold, m) && starts(other.paid, one.paid, m);
}

void test_rule(bay_market::rule rule)
{
    const auto number = static_cast<std::uint8_t>(rule);
    static bay_market_results results;
    expect(bay_market_clear_tables(number, &lent, &results) == 0, "cleared");
    expect(same_clearing(bay_market::clear(rule, market), results), "a clearing");
    expect(bay_market_clear_efficient_tables(number, &lent, &results) == 0, "cleared by the efficient mechanism");
    expect(same_clearing(bay_market::clear_efficient(rule, market), results), "an efficient clearing");

    static bay_market_submission submission;
    expect(bay_market_clear_marked_tables(number, &lent, &submission) == 0, "cleared with places and floors");
    bay_market::submission handed_in = bay_market::clear_marked(rule, market);
    expect(same_clearing(handed_in, submission.clearing) && starts(submission.places, handed_in.places, n * m)
           && starts(submission.floors, handed_in.floors, m), "a marked clearing");
    expect(bay_market::mark(rule, market, handed_in), "it is passed");
    handed_in.floors[0]++;
    expect(!bay_market::mark(rule, market, handed_in), "and with another floor it is not");
    handed_in.places.pop_back();
    refused(BAY_MARKET_LENT_LENGTHS, [&] { bay_market::mark(rule, market, handed_in); }, "10");

    static bay_market_explanation explanation;
    expect(bay_market_explain_tables(number, &lent, &explanation) == 0, "explained");
    const bay_market::explanation told = bay_market::explain(rule, market);
    expect(starts(explanation.codes, told.codes, n * m) && starts(explanation.stations, told.stations, n)
           && starts(explanation.charges, told.charges, n) && starts(explanation.reasons, told.reasons, n), "what is told");

    const std::vector<std::uint32_t> worths{10, 1}, rows{10, 1, 14, 9};
    bay_market_tried tried;
    expect(bay_market_try_tables(number, &lent, 2, worths.data(), rows.data() + 2, &tried) == 0, "tried");
    const bay_market::tried other = bay_market::try_row(rule, market, 2, worths, std::span(rows).last(2));
    expect(other.first_gain == tried.first_gain && other.second_gain == tried.second_gain
           && starts(tried.changes, other.changes, n), "a tried row");
    expect(bay_market::gains(rule, market, 2, worths, rows) == std::vector{tried.first_gain, tried.second_gain}, "gains");
    expect(bay_market::gains(rule, market, 2, worths, {}).empty(), "gains of no row");

    bay_market_price_list price_list;
    expect(bay_market_menu_tables(number, &lent, 2, &price_list) == 0, "listed");
    const bay_market::price_list list = bay_market::menu(rule, market, 2);
    expect(starts(price_list.bars, list.bars, m) && starts(price_list.prices, list.prices, m), "a price list");
    refused(BAY_MARKET_NO_SUCH_GUEST, [&] { bay_market::menu(rule, market, 4); }, "24");
}

/* Table I of document 000, in which the two mechanisms differ. */
void test_mechanisms()
{
    const bay_market::market table{{4, 1, 3, 2, 5}, {1, 2, 4, 2, 3}, {5, 2, 6, 4, 3}, {1, 2, 3, 4, 5},
                                   {0, 4, 0, 5, 2, 2, 0, 5, 1, 0, 7, 5, 0, 4, 0, 6, 4, 0, 3, 0, 0, 0, 2, 3, 5}};
    using charges = std::vector<std::uint32_t>;
    expect(bay_market::clear(bay_market::rule::median, table).charges == charges{15, 0, 18, 0, 0}, "a truthful round");
    expect(bay_market::clear_efficient(bay_market::rule::median, table).charges == charges{15, 0, 18, 12, 9}, "a quiet one");
}

void test_post()
{
    static bay_market_ledger room;
    bay_market::ledger ledger(n, m);
    expect(bay_market_post_tables(1, &lent, 5, 1, &room) == 0, "posted");
    ledger.post(bay_market::rule::median, market, 5, 1);
    expect(starts(room.guests, ledger.guests, n) && room.house == ledger.house && starts(room.last, ledger.last, 8)
           && room.stations[0].sold == ledger.stations[0].sold && room.stations[0].paid == ledger.stations[0].paid,
           "a posting");
    refused(BAY_MARKET_ROUND_OUT_OF_TURN, [&] { ledger.post(bay_market::rule::median, market, 5, 1); }, "a round twice");
}

void test_counts()
{
    const std::vector<std::uint32_t> many(std::size_t{1} << 16);
    const std::vector<std::uint16_t> as_many(many.size());
    const bay_market::tables crowd{market.asks, market.bays, as_many, many, many}, field{many, as_many, {}, {}, {}}, none{};
    for (const bay_market::tables &t : {crowd, field, none}) {
        refused(BAY_MARKET_COUNTS_OUT_OF_RANGE, [&] { bay_market::clear(bay_market::rule::median, t); }, "2");
        refused(BAY_MARKET_COUNTS_OUT_OF_RANGE, [&] { bay_market::clear_marked(bay_market::rule::median, t); }, "2");
        refused(BAY_MARKET_COUNTS_OUT_OF_RANGE, [&] { bay_market::explain(bay_market::rule::median, t); }, "2");
        refused(BAY_MARKET_COUNTS_OUT_OF_RANGE, [&] { bay_market::gains(bay_market::rule::median, t, 1, {}, many); }, "2");
        refused(BAY_MARKET_COUNTS_OUT_OF_RANGE, [&] { bay_market::join(market, t); }, "2");
        refused(BAY_MARKET_COUNTS_OUT_OF_RANGE, [&] { bay_market::write(t); }, "2");
    }
    refused(BAY_MARKET_LENGTHS_DIFFER, [] {
        bay_market::clear(bay_market::rule::median, {market.asks, market.bays, market.amounts, market.tickets, {}});
    }, "no bids");
}

} // namespace

int main()
{
    test_read_and_write();
    test_places();
    test_join();
    test_rule(bay_market::rule::median);
    test_rule(bay_market::rule::two_thirds);
    test_mechanisms();
    test_post();
    test_counts();
    if (failures == 0) {
        std::puts("C++ test over spans: all as expected");
    }
    return failures != 0;
}
