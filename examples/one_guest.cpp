// Clears a market, tells one guest why it wins or loses, and posts the round to a book.
//
//     c++ -std=c++20 -Iinclude examples/one_guest.cpp prebuilt/$(uname -m)-linux/libbay_market.a -o one_guest
//     ./one_guest examples/evening.sheet 24
#include <bay_market.hpp>
#include <cstdlib>
#include <fstream>
#include <iostream>
#include <string>

int main(int words, char **word)
try {
    if (words != 3) throw std::runtime_error("usage: one_guest FILE GUEST");
    std::ifstream file(word[1], std::ios::binary);
    if (!file) throw std::runtime_error(std::string("cannot read ") + word[1]);
    const std::vector<std::uint8_t> sheet(std::istreambuf_iterator<char>(file), {});
    const auto market = bay_market::read(sheet);
    const auto rule = bay_market::rule::median;
    const auto cleared = bay_market::clear(rule, market);
    const auto told = bay_market::explain(rule, market);
    const std::size_t guest = std::strtoul(word[2], nullptr, 10), stations = market.asks.size();
    if (guest < 1 || guest > market.amounts.size()) throw std::runtime_error("no such guest: " + std::to_string(guest));

    std::cout << "cut " << cleared.cut << " margin " << cleared.margin << "\nguest " << guest;
    if (told.stations[guest - 1] != 0) {
        std::cout << " wins station " << told.stations[guest - 1] << " charge " << told.charges[guest - 1] << '\n';
    } else {
        std::cout << " loses: " << bay_market_code_text(told.reasons[guest - 1]) << '\n';
    }
    for (std::size_t j = 0; j < stations; j++) {
        const auto code = told.codes[(guest - 1) * stations + j];
        std::cout << "at station " << j + 1 << ": " << bay_market_code_text(code) << '\n';
    }
    bay_market::ledger book(200, 40);
    book.post(rule, market, 0, 1);
    std::cout << "posted: guest " << guest << " owes " << book.guests[guest - 1] << ", the house has " << book.house << '\n';
} catch (const std::exception &error) {
    std::cerr << error.what() << '\n';
    return 1;
}
