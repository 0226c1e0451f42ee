/*
 * The bay market in C++20, over bay_market.h: every function there is one here, by the same name without bay_market_,
 * but try_row for bay_market_try. Each is one call of the library.
 *
 *     const bay_market::market market = bay_market::read(bytes);
 *     const bay_market::clearing clearing = bay_market::clear(bay_market::rule::median, market);
 *
 * Lists that are only read are lent as spans, so that vectors, arrays and parts of them are taken as they are. What a
 * call gives is its value and owns its lists. What the library refuses is thrown as bay_market::refusal, and nothing
 * has then changed. bay_market.h says what each call does and when it is refused.
 */
#ifndef BAY_MARKET_HPP
#define BAY_MARKET_HPP

#if __cplusplus < 202002L
#error "bay_market.hpp is for C++20 and later; bay_market.h is for every C++"
#endif

#include "bay_market.h"

#include <algorithm>
#include <array>
#include <cstddef>
#include <cstdint>
#include <ranges>
#include <span>
#include <stdexcept>
#include <string_view>
#include <tuple>
#include <type_traits>
#include <vector>

namespace bay_market {

/* What the library refuses: its number, and its text as what(). */
class refusal : public std::runtime_error {
public:
    explicit refusal(std::uint8_t answer)
        : std::runtime_error(bay_market_refusal_text(answer)), number_(static_cast<bay_market_refusal>(answer))
    {
    }

    bay_market_refusal number() const noexcept { return number_; }

private:
    bay_market_refusal number_;
};

enum class rule : std::uint8_t { median = BAY_MARKET_RULE_MEDIAN, two_thirds = BAY_MARKET_RULE_TWO_THIRDS };

/* A market's tables, lent for reading. Guest i's bid at station j, both from 0, is bids[i * asks.size() + j]. */
struct tables {
    std::span<const std::uint32_t> asks;
    std::span<const std::uint16_t> bays;
    std::span<const std::uint16_t> amounts;
    std::span<const std::uint32_t> tickets;
    std::span<const std::uint32_t> bids;
};

/* A market that owns its tables. It is lent as tables wherever they are asked for. */
struct market {
    std::vector<std::uint32_t> asks;
    std::vector<std::uint16_t> bays;
    std::vector<std::uint16_t> amounts;
    std::vector<std::uint32_t> tickets;
    std::vector<std::uint32_t> bids;

    operator tables() const noexcept { return {asks, bays, amounts, tickets, bids}; }
};

/* Prices, falls and cells, lent for reading. */
struct places {
    std::span<const std::uint32_t> prices;
    std::span<const std::uint32_t> falls;
    std::span<const std::uint16_t> guest_first;
    std::span<const std::uint16_t> guest_second;
    std::span<const std::uint16_t> station_first;
    std::span<const std::uint16_t> station_second;
};

struct clearing {
    std::uint32_t cut = 0;
    std::uint64_t margin = 0;
    std::vector<std::uint16_t> stations; /* of each guest, 0 for none */
    std::vector<std::uint32_t> charges;  /* of each guest */
    std::vector<std::uint32_t> sold;     /* of each station */
    std::vector<std::uint64_t> paid;     /* of each station */
};

/* A clearing with its places, row after row, and floors. */
struct submission : clearing {
    std::vector<std::uint8_t> places;
    std::vector<std::uint32_t> floors;
};

/* What guests are told: codes row after row, and of each guest its station, its charge and its reason. */
struct explanation {
    std::vector<std::uint8_t> codes;
    std::vector<std::uint16_t> stations;
    std::vector<std::uint32_t> charges;
    std::vector<std::uint8_t> reasons;
};

struct tried {
    std::int64_t first_gain = 0;
    std::int64_t second_gain = 0;
    std::vector<std::uint8_t> changes;
};

struct price_list {
    std::vector<std::uint32_t> bars;
    std::vector<std::uint32_t> prices;
};

/* The words that each parameter is in C: a list is a pointer and a length. */
namespace detail {

template <class Number>
    requires std::is_integral_v<Number> || std::is_pointer_v<Number>
std::tuple<Number> words(Number number)
{
    return {number};
}

inline std::tuple<std::uint8_t> words(rule named)
{
    return {static_cast<std::uint8_t>(named)};
}

auto words(std::ranges::contiguous_range auto &list)
{
    return std::tuple(std::ranges::data(list), std::ranges::size(list));
}

inline auto words(const tables &t)
{
    return std::tuple_cat(words(t.asks), words(t.bays), words(t.amounts), words(t.tickets), words(t.bids),
                          words(t.asks.size()));
}

inline auto words(const places &p)
{
    return std::tuple_cat(words(p.prices), words(p.falls), words(p.guest_first), words(p.guest_second),
                          words(p.station_first), words(p.station_second));
}

template <class Function, class... Parameters>
void call(Function *function, Parameters &&...parameters)
{
    const std::uint8_t answer = std::apply(function, std::tuple_cat(words(parameters)...));
    if (answer != BAY_MARKET_ACCEPTED) {
        throw refusal(answer);
    }
}

/* How long lists are made: a count beyond the limits is refused before any of them is looked at. */
inline std::size_t guests(std::size_t count) { return std::min<std::size_t>(count, BAY_MARKET_MAX_GUESTS); }
inline std::size_t stations(std::size_t count) { return std::min<std::size_t>(count, BAY_MARKET_MAX_STATIONS); }
inline std::size_t guests(const tables &t) { return guests(t.amounts.size()); }
inline std::size_t stations(const tables &t) { return stations(t.asks.size()); }

inline void make_room(clearing &made, const tables &t)
{
    made.stations.resize(guests(t));
    made.charges.resize(guests(t));
    made.sold.resize(stations(t));
    made.paid.resize(stations(t));
}

inline market room(std::size_t n, std::size_t m)
{
    return {std::vector<std::uint32_t>(m), std::vector<std::uint16_t>(m), std::vector<std::uint16_t>(n),
            std::vector<std::uint32_t>(n), std::vector<std::uint32_t>(n * m)};
}

template <class Function>
market read_by(Function *function, std::span<const std::uint8_t> bytes)
{
    market made = room(BAY_MARKET_MAX_GUESTS, BAY_MARKET_MAX_STATIONS);
    std::uint16_t n = 0, m = 0;
    call(function, bytes, made.amounts, made.tickets, made.asks, made.bays, made.bids, &n, &m);
    made.asks.resize(m);
    made.bays.resize(m);
    made.amounts.resize(n);
    made.tickets.resize(n);
    made.bids.resize(std::size_t{n} * m);
    return made;
}

template <class Function>
clearing clear_by(Function *function, rule by, const tables &t)
{
    clearing made;
    make_room(made, t);
    call(function, by, t, made.stations, made.charges, made.sold, made.paid, &made.cut, &made.margin);
    return made;
}

} // namespace detail

inline market read(std::span<const std::uint8_t> sheet)
{
    return detail::read_by(bay_market_read, sheet);
}

inline market read_csv(std::string_view text)
{
    const auto *bytes = reinterpret_cast<const std::uint8_t *>(text.data()); // characters as bytes, which may alias
    return detail::read_by(bay_market_read_csv, std::span(bytes, text.size()));
}

inline std::vector<std::uint8_t> write(const tables &t)
{
    std::vector<std::uint8_t> sheet(BAY_MARKET_MAX_SHEET);
    std::size_t length = 0;
    detail::call(bay_market_write, t, sheet, &length);
    sheet.resize(length);
    return sheet;
}

inline std::vector<std::uint32_t> place_bids(const places &p)
{
    std::vector<std::uint32_t> bids(detail::guests(p.guest_first.size()) * detail::stations(p.station_first.size()));
    detail::call(bay_market_place_bids, p, bids);
    return bids;
}

inline market join(const tables &first, const tables &second)
{
    const std::size_t n = detail::guests(detail::guests(first) + detail::guests(second));
    market joined = detail::room(n, detail::stations(first));
    detail::call(bay_market_join, first, second, joined.asks, joined.bays, joined.amounts, joined.tickets, joined.bids);
    return joined;
}

inline clearing clear(rule by, const tables &t)
{
    return detail::clear_by(bay_market_clear, by, t);
}

inline clearing clear_efficient(rule by, const tables &t)
{
    return detail::clear_by(bay_market_clear_efficient, by, t);
}

inline explanation explain(rule by, const tables &t)
{
    const std::size_t n = detail::guests(t);
    explanation made{std::vector<std::uint8_t>(n * detail::stations(t)), std::vector<std::uint16_t>(n),
                     std::vector<std::uint32_t>(n), std::vector<std::uint8_t>(n)};
    detail::call(bay_market_explain, by, t, made.codes, made.stations, made.charges, made.reasons);
    return made;
}

/* Guests are numbered from 1. */
inline tried try_row(rule by, const tables &t, std::uint32_t guest, std::span<const std::uint32_t> worths,
                     std::span<const std::uint32_t> row)
{
    tried made;
    made.changes.resize(detail::guests(t));
    detail::call(bay_market_try, by, t, guest, worths, row, made.changes, &made.first_gain, &made.second_gain);
    return made;
}

inline price_list menu(rule by, const tables &t, std::uint32_t guest)
{
    price_list made{std::vector<std::uint32_t>(detail::stations(t)), std::vector<std::uint32_t>(detail::stations(t))};
    detail::call(bay_market_menu, by, t, guest, made.bars, made.prices);
    return made;
}

/* The gain of each of the rows, which stand one after the other. */
inline std::vector<std::int64_t> gains(rule by, const tables &t, std::uint32_t guest,
                                       std::span<const std::uint32_t> worths, std::span<const std::uint32_t> rows)
{
    std::vector<std::int64_t> made(t.asks.empty() ? 0 : rows.size() / t.asks.size());
    detail::call(bay_market_gains, by, t, guest, worths, rows, made);
    return made;
}

inline submission clear_marked(rule by, const tables &t)
{
    submission made;
    detail::make_room(made, t);
    made.places.resize(detail::guests(t) * detail::stations(t));
    made.floors.resize(detail::stations(t));
    detail::call(bay_market_clear_marked, by, t, made.stations, made.charges, made.sold, made.paid, made.places,
                 made.floors, &made.cut, &made.margin);
    return made;
}

/* Whether every number of what is handed in is right. */
inline bool mark(rule by, const tables &t, const submission &handed_in)
{
    std::uint8_t correct = 0;
    detail::call(bay_market_mark, by, t, handed_in.stations, handed_in.charges, handed_in.sold, handed_in.paid,
                 handed_in.places, handed_in.floors, handed_in.cut, handed_in.margin, &correct);
    return correct == 1;
}

/* The ledger: empty at first. */
struct ledger {
    std::vector<std::uint64_t> guests;
    std::vector<bay_market_station_account> stations;
    std::uint64_t house = 0;
    std::array<std::uint32_t, BAY_MARKET_MAX_DESKS> last{}; /* each desk's last round */

    ledger(std::size_t guest_count, std::size_t station_count) : guests(guest_count), stations(station_count) {}

    void post(rule by, const tables &t, std::uint8_t desk, std::uint32_t round)
    {
        detail::call(bay_market_post, by, t, desk, round, guests, stations, &house, last);
    }
};

} // namespace bay_market

#endif
