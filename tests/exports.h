/* scripts/exports writes this file from crates/bay_market/src: the real functions, renamed, and of each
 * group of parameters and of each function the parameters, the arguments and the parts that are lent. */

uint8_t real_bay_market_clear(uint8_t rule,
                              const uint32_t *asks, size_t asks_len,
                              const uint16_t *bays, size_t bays_len,
                              const uint16_t *amounts, size_t amounts_len,
                              const uint32_t *tickets, size_t tickets_len,
                              const uint32_t *bids, size_t bids_len,
                              size_t width,
                              uint16_t *stations, size_t stations_len,
                              uint32_t *charges, size_t charges_len,
                              uint32_t *sold, size_t sold_len,
                              uint64_t *paid, size_t paid_len,
                              uint32_t *cut, uint64_t *margin);

uint8_t real_bay_market_clear_efficient(uint8_t rule,
                                        const uint32_t *asks, size_t asks_len,
                                        const uint16_t *bays, size_t bays_len,
                                        const uint16_t *amounts, size_t amounts_len,
                                        const uint32_t *tickets, size_t tickets_len,
                                        const uint32_t *bids, size_t bids_len,
                                        size_t width,
                                        uint16_t *stations, size_t stations_len,
                                        uint32_t *charges, size_t charges_len,
                                        uint32_t *sold, size_t sold_len,
                                        uint64_t *paid, size_t paid_len,
                                        uint32_t *cut, uint64_t *margin);

uint8_t real_bay_market_clear_marked(uint8_t rule,
                                     const uint32_t *asks, size_t asks_len,
                                     const uint16_t *bays, size_t bays_len,
                                     const uint16_t *amounts, size_t amounts_len,
                                     const uint32_t *tickets, size_t tickets_len,
                                     const uint32_t *bids, size_t bids_len,
                                     size_t width,
                                     uint16_t *stations, size_t stations_len,
                                     uint32_t *charges, size_t charges_len,
                                     uint32_t *sold, size_t sold_len,
                                     uint64_t *paid, size_t paid_len,
                                     uint8_t *places, size_t places_len,
                                     uint32_t *floors, size_t floors_len,
                                     uint32_t *cut, uint64_t *margin);

uint8_t real_bay_market_explain(uint8_t rule,
                                const uint32_t *asks, size_t asks_len,
                                const uint16_t *bays, size_t bays_len,
                                const uint16_t *amounts, size_t amounts_len,
                                const uint32_t *tickets, size_t tickets_len,
                                const uint32_t *bids, size_t bids_len,
                                size_t width,
                                uint8_t *codes, size_t codes_len,
                                uint16_t *stations, size_t stations_len,
                                uint32_t *charges, size_t charges_len,
                                uint8_t *reasons, size_t reasons_len);

uint8_t real_bay_market_gains(uint8_t rule,
                              const uint32_t *asks, size_t asks_len,
                              const uint16_t *bays, size_t bays_len,
                              const uint16_t *amounts, size_t amounts_len,
                              const uint32_t *tickets, size_t tickets_len,
                              const uint32_t *bids, size_t bids_len,
                              size_t width, uint32_t guest,
                              const uint32_t *worths, size_t worths_len,
                              const uint32_t *rows, size_t rows_len,
                              int64_t *gains, size_t gains_len);

uint8_t real_bay_market_join(const uint32_t *asks, size_t asks_len,
                             const uint16_t *bays, size_t bays_len,
                             const uint16_t *amounts, size_t amounts_len,
                             const uint32_t *tickets, size_t tickets_len,
                             const uint32_t *bids, size_t bids_len,
                             size_t width,
                             const uint32_t *asks2, size_t asks2_len,
                             const uint16_t *bays2, size_t bays2_len,
                             const uint16_t *amounts2, size_t amounts2_len,
                             const uint32_t *tickets2, size_t tickets2_len,
                             const uint32_t *bids2, size_t bids2_len,
                             size_t width2,
                             uint32_t *joined_asks, size_t joined_asks_len,
                             uint16_t *joined_bays, size_t joined_bays_len,
                             uint16_t *joined_amounts, size_t joined_amounts_len,
                             uint32_t *joined_tickets, size_t joined_tickets_len,
                             uint32_t *joined_bids, size_t joined_bids_len);

uint8_t real_bay_market_mark(uint8_t rule,
                             const uint32_t *asks, size_t asks_len,
                             const uint16_t *bays, size_t bays_len,
                             const uint16_t *amounts, size_t amounts_len,
                             const uint32_t *tickets, size_t tickets_len,
                             const uint32_t *bids, size_t bids_len,
                             size_t width,
                             const uint16_t *stations, size_t stations_len,
                             const uint32_t *charges, size_t charges_len,
                             const uint32_t *sold, size_t sold_len,
                             const uint64_t *paid, size_t paid_len,
                             const uint8_t *places, size_t places_len,
                             const uint32_t *floors, size_t floors_len,
                             uint32_t cut, uint64_t margin,
                             uint8_t *correct);

uint8_t real_bay_market_menu(uint8_t rule,
                             const uint32_t *asks, size_t asks_len,
                             const uint16_t *bays, size_t bays_len,
                             const uint16_t *amounts, size_t amounts_len,
                             const uint32_t *tickets, size_t tickets_len,
                             const uint32_t *bids, size_t bids_len,
                             size_t width, uint32_t guest,
                             uint32_t *bars, size_t bars_len,
                             uint32_t *prices, size_t prices_len);

uint8_t real_bay_market_place_bids(const uint32_t *prices, size_t prices_len,
                                   const uint32_t *falls, size_t falls_len,
                                   const uint16_t *guest_first, size_t guest_first_len,
                                   const uint16_t *guest_second, size_t guest_second_len,
                                   const uint16_t *station_first, size_t station_first_len,
                                   const uint16_t *station_second, size_t station_second_len,
                                   uint32_t *bids, size_t bids_len);

uint8_t real_bay_market_post(uint8_t rule,
                             const uint32_t *asks, size_t asks_len,
                             const uint16_t *bays, size_t bays_len,
                             const uint16_t *amounts, size_t amounts_len,
                             const uint32_t *tickets, size_t tickets_len,
                             const uint32_t *bids, size_t bids_len,
                             size_t width, uint8_t desk, uint32_t round,
                             uint64_t *guests, size_t guests_len,
                             struct bay_market_station_account *stations, size_t stations_len,
                             uint64_t *house,
                             uint32_t *last, size_t last_len);

uint8_t real_bay_market_read(const uint8_t *sheet, size_t sheet_len,
                             uint16_t *amounts, size_t amounts_len,
                             uint32_t *tickets, size_t tickets_len,
                             uint32_t *asks, size_t asks_len,
                             uint16_t *bays, size_t bays_len,
                             uint32_t *bids, size_t bids_len,
                             uint16_t *n, uint16_t *m);

uint8_t real_bay_market_read_csv(const uint8_t *text, size_t text_len,
                                 uint16_t *amounts, size_t amounts_len,
                                 uint32_t *tickets, size_t tickets_len,
                                 uint32_t *asks, size_t asks_len,
                                 uint16_t *bays, size_t bays_len,
                                 uint32_t *bids, size_t bids_len,
                                 uint16_t *n, uint16_t *m);

uint8_t real_bay_market_try(uint8_t rule,
                            const uint32_t *asks, size_t asks_len,
                            const uint16_t *bays, size_t bays_len,
                            const uint16_t *amounts, size_t amounts_len,
                            const uint32_t *tickets, size_t tickets_len,
                            const uint32_t *bids, size_t bids_len,
                            size_t width, uint32_t guest,
                            const uint32_t *worths, size_t worths_len,
                            const uint32_t *row, size_t row_len,
                            uint8_t *changes, size_t changes_len,
                            int64_t *first_gain, int64_t *second_gain);

uint8_t real_bay_market_write(const uint32_t *asks, size_t asks_len,
                              const uint16_t *bays, size_t bays_len,
                              const uint16_t *amounts, size_t amounts_len,
                              const uint32_t *tickets, size_t tickets_len,
                              const uint32_t *bids, size_t bids_len,
                              size_t width,
                              uint8_t *sheet, size_t sheet_len,
                              size_t *length);

#define MARKET_PARAMETERS const uint32_t *asks, size_t asks_len, const uint16_t *bays, size_t bays_len, \
    const uint16_t *amounts, size_t amounts_len, const uint32_t *tickets, size_t tickets_len, const uint32_t *bids, \
    size_t bids_len, size_t width
#define MARKET_ARGUMENTS asks, asks_len, bays, bays_len, amounts, amounts_len, tickets, tickets_len, bids, bids_len, \
    width
#define MARKET_PARTS LIST(asks), LIST(bays), LIST(amounts), LIST(tickets), LIST(bids)

#define RESULT_PARAMETERS uint16_t *stations, size_t stations_len, uint32_t *charges, size_t charges_len, \
    uint32_t *sold, size_t sold_len, uint64_t *paid, size_t paid_len, uint32_t *cut, uint64_t *margin
#define RESULT_ARGUMENTS stations, stations_len, charges, charges_len, sold, sold_len, paid, paid_len, cut, margin
#define RESULT_PARTS LIST(stations), LIST(charges), LIST(sold), LIST(paid), NUMBER(cut), NUMBER(margin)

#define TOLD_PARAMETERS uint8_t *codes, size_t codes_len, uint16_t *stations, size_t stations_len, uint32_t *charges, \
    size_t charges_len, uint8_t *reasons, size_t reasons_len
#define TOLD_ARGUMENTS codes, codes_len, stations, stations_len, charges, charges_len, reasons, reasons_len
#define TOLD_PARTS LIST(codes), LIST(stations), LIST(charges), LIST(reasons)

#define PLACES_PARAMETERS const uint32_t *prices, size_t prices_len, const uint32_t *falls, size_t falls_len, \
    const uint16_t *guest_first, size_t guest_first_len, const uint16_t *guest_second, size_t guest_second_len, \
    const uint16_t *station_first, size_t station_first_len, const uint16_t *station_second, size_t station_second_len
#define PLACES_ARGUMENTS prices, prices_len, falls, falls_len, guest_first, guest_first_len, guest_second, \
    guest_second_len, station_first, station_first_len, station_second, station_second_len
#define PLACES_PARTS LIST(prices), LIST(falls), LIST(guest_first), LIST(guest_second), LIST(station_first), \
    LIST(station_second)

#define CLEAR_PARAMETERS uint8_t rule, const uint32_t *asks, size_t asks_len, const uint16_t *bays, size_t bays_len, \
    const uint16_t *amounts, size_t amounts_len, const uint32_t *tickets, size_t tickets_len, const uint32_t *bids, \
    size_t bids_len, size_t width, uint16_t *stations, size_t stations_len, uint32_t *charges, size_t charges_len, \
    uint32_t *sold, size_t sold_len, uint64_t *paid, size_t paid_len, uint32_t *cut, uint64_t *margin
#define CLEAR_ARGUMENTS rule, asks, asks_len, bays, bays_len, amounts, amounts_len, tickets, tickets_len, bids, \
    bids_len, width, stations, stations_len, charges, charges_len, sold, sold_len, paid, paid_len, cut, margin
#define CLEAR_PARTS LIST(asks), LIST(bays), LIST(amounts), LIST(tickets), LIST(bids), LIST(stations), LIST(charges), \
    LIST(sold), LIST(paid), NUMBER(cut), NUMBER(margin)

#define CLEAR_EFFICIENT_PARAMETERS uint8_t rule, const uint32_t *asks, size_t asks_len, const uint16_t *bays, \
    size_t bays_len, const uint16_t *amounts, size_t amounts_len, const uint32_t *tickets, size_t tickets_len, \
    const uint32_t *bids, size_t bids_len, size_t width, uint16_t *stations, size_t stations_len, uint32_t *charges, \
    size_t charges_len, uint32_t *sold, size_t sold_len, uint64_t *paid, size_t paid_len, uint32_t *cut, \
    uint64_t *margin
#define CLEAR_EFFICIENT_ARGUMENTS rule, asks, asks_len, bays, bays_len, amounts, amounts_len, tickets, tickets_len, \
    bids, bids_len, width, stations, stations_len, charges, charges_len, sold, sold_len, paid, paid_len, cut, margin
#define CLEAR_EFFICIENT_PARTS LIST(asks), LIST(bays), LIST(amounts), LIST(tickets), LIST(bids), LIST(stations), \
    LIST(charges), LIST(sold), LIST(paid), NUMBER(cut), NUMBER(margin)

#define CLEAR_MARKED_PARAMETERS uint8_t rule, const uint32_t *asks, size_t asks_len, const uint16_t *bays, \
    size_t bays_len, const uint16_t *amounts, size_t amounts_len, const uint32_t *tickets, size_t tickets_len, \
    const uint32_t *bids, size_t bids_len, size_t width, uint16_t *stations, size_t stations_len, uint32_t *charges, \
    size_t charges_len, uint32_t *sold, size_t sold_len, uint64_t *paid, size_t paid_len, uint8_t *places, \
    size_t places_len, uint32_t *floors, size_t floors_len, uint32_t *cut, uint64_t *margin
#define CLEAR_MARKED_ARGUMENTS rule, asks, asks_len, bays, bays_len, amounts, amounts_len, tickets, tickets_len, bids, \
    bids_len, width, stations, stations_len, charges, charges_len, sold, sold_len, paid, paid_len, places, places_len, \
    floors, floors_len, cut, margin
#define CLEAR_MARKED_PARTS LIST(asks), LIST(bays), LIST(amounts), LIST(tickets), LIST(bids), LIST(stations), \
    LIST(charges), LIST(sold), LIST(paid), LIST(places), LIST(floors), NUMBER(cut), NUMBER(margin)

#define EXPLAIN_PARAMETERS uint8_t rule, const uint32_t *asks, size_t asks_len, const uint16_t *bays, size_t bays_len, \
    const uint16_t *amounts, size_t amounts_len, const uint32_t *tickets, size_t tickets_len, const uint32_t *bids, \
    size_t bids_len, size_t width, uint8_t *codes, size_t codes_len, uint16_t *stations, size_t stations_len, \
    uint32_t *charges, size_t charges_len, uint8_t *reasons, size_t reasons_len
#define EXPLAIN_ARGUMENTS rule, asks, asks_len, bays, bays_len, amounts, amounts_len, tickets, tickets_len, bids, \
    bids_len, width, codes, codes_len, stations, stations_len, charges, charges_len, reasons, reasons_len
#define EXPLAIN_PARTS LIST(asks), LIST(bays), LIST(amounts), LIST(tickets), LIST(bids), LIST(codes), LIST(stations), \
    LIST(charges), LIST(reasons)

#define GAINS_PARAMETERS uint8_t rule, const uint32_t *asks, size_t asks_len, const uint16_t *bays, size_t bays_len, \
    const uint16_t *amounts, size_t amounts_len, const uint32_t *tickets, size_t tickets_len, const uint32_t *bids, \
    size_t bids_len, size_t width, uint32_t guest, const uint32_t *worths, size_t worths_len, const uint32_t *rows, \
    size_t rows_len, int64_t *gains, size_t gains_len
#define GAINS_ARGUMENTS rule, asks, asks_len, bays, bays_len, amounts, amounts_len, tickets, tickets_len, bids, \
    bids_len, width, guest, worths, worths_len, rows, rows_len, gains, gains_len
#define GAINS_PARTS LIST(asks), LIST(bays), LIST(amounts), LIST(tickets), LIST(bids), LIST(worths), LIST(rows), \
    LIST(gains)

#define JOIN_PARAMETERS const uint32_t *asks, size_t asks_len, const uint16_t *bays, size_t bays_len, \
    const uint16_t *amounts, size_t amounts_len, const uint32_t *tickets, size_t tickets_len, const uint32_t *bids, \
    size_t bids_len, size_t width, const uint32_t *asks2, size_t asks2_len, const uint16_t *bays2, size_t bays2_len, \
    const uint16_t *amounts2, size_t amounts2_len, const uint32_t *tickets2, size_t tickets2_len, \
    const uint32_t *bids2, size_t bids2_len, size_t width2, uint32_t *joined_asks, size_t joined_asks_len, \
    uint16_t *joined_bays, size_t joined_bays_len, uint16_t *joined_amounts, size_t joined_amounts_len, \
    uint32_t *joined_tickets, size_t joined_tickets_len, uint32_t *joined_bids, size_t joined_bids_len
#define JOIN_ARGUMENTS asks, asks_len, bays, bays_len, amounts, amounts_len, tickets, tickets_len, bids, bids_len, \
    width, asks2, asks2_len, bays2, bays2_len, amounts2, amounts2_len, tickets2, tickets2_len, bids2, bids2_len, \
    width2, joined_asks, joined_asks_len, joined_bays, joined_bays_len, joined_amounts, joined_amounts_len, \
    joined_tickets, joined_tickets_len, joined_bids, joined_bids_len
#define JOIN_PARTS LIST(asks), LIST(bays), LIST(amounts), LIST(tickets), LIST(bids), LIST(asks2), LIST(bays2), \
    LIST(amounts2), LIST(tickets2), LIST(bids2), LIST(joined_asks), LIST(joined_bays), LIST(joined_amounts), \
    LIST(joined_tickets), LIST(joined_bids)

#define MARK_PARAMETERS uint8_t rule, const uint32_t *asks, size_t asks_len, const uint16_t *bays, size_t bays_len, \
    const uint16_t *amounts, size_t amounts_len, const uint32_t *tickets, size_t tickets_len, const uint32_t *bids, \
    size_t bids_len, size_t width, const uint16_t *stations, size_t stations_len, const uint32_t *charges, \
    size_t charges_len, const uint32_t *sold, size_t sold_len, const uint64_t *paid, size_t paid_len, \
    const uint8_t *places, size_t places_len, const uint32_t *floors, size_t floors_len, uint32_t cut, \
    uint64_t margin, uint8_t *correct
#define MARK_ARGUMENTS rule, asks, asks_len, bays, bays_len, amounts, amounts_len, tickets, tickets_len, bids, \
    bids_len, width, stations, stations_len, charges, charges_len, sold, sold_len, paid, paid_len, places, places_len, \
    floors, floors_len, cut, margin, correct
#define MARK_PARTS LIST(asks), LIST(bays), LIST(amounts), LIST(tickets), LIST(bids), LIST(stations), LIST(charges), \
    LIST(sold), LIST(paid), LIST(places), LIST(floors), NUMBER(correct)

#define MENU_PARAMETERS uint8_t rule, const uint32_t *asks, size_t asks_len, const uint16_t *bays, size_t bays_len, \
    const uint16_t *amounts, size_t amounts_len, const uint32_t *tickets, size_t tickets_len, const uint32_t *bids, \
    size_t bids_len, size_t width, uint32_t guest, uint32_t *bars, size_t bars_len, uint32_t *prices, \
    size_t prices_len
#define MENU_ARGUMENTS rule, asks, asks_len, bays, bays_len, amounts, amounts_len, tickets, tickets_len, bids, \
    bids_len, width, guest, bars, bars_len, prices, prices_len
#define MENU_PARTS LIST(asks), LIST(bays), LIST(amounts), LIST(tickets), LIST(bids), LIST(bars), LIST(prices)

#define PLACE_BIDS_PARAMETERS const uint32_t *prices, size_t prices_len, const uint32_t *falls, size_t falls_len, \
    const uint16_t *guest_first, size_t guest_first_len, const uint16_t *guest_second, size_t guest_second_len, \
    const uint16_t *station_first, size_t station_first_len, const uint16_t *station_second, \
    size_t station_second_len, uint32_t *bids, size_t bids_len
#define PLACE_BIDS_ARGUMENTS prices, prices_len, falls, falls_len, guest_first, guest_first_len, guest_second, \
    guest_second_len, station_first, station_first_len, station_second, station_second_len, bids, bids_len
#define PLACE_BIDS_PARTS LIST(prices), LIST(falls), LIST(guest_first), LIST(guest_second), LIST(station_first), \
    LIST(station_second), LIST(bids)

#define POST_PARAMETERS uint8_t rule, const uint32_t *asks, size_t asks_len, const uint16_t *bays, size_t bays_len, \
    const uint16_t *amounts, size_t amounts_len, const uint32_t *tickets, size_t tickets_len, const uint32_t *bids, \
    size_t bids_len, size_t width, uint8_t desk, uint32_t round, uint64_t *guests, size_t guests_len, \
    struct bay_market_station_account *stations, size_t stations_len, uint64_t *house, uint32_t *last, size_t last_len
#define POST_ARGUMENTS rule, asks, asks_len, bays, bays_len, amounts, amounts_len, tickets, tickets_len, bids, \
    bids_len, width, desk, round, guests, guests_len, stations, stations_len, house, last, last_len
#define POST_PARTS LIST(asks), LIST(bays), LIST(amounts), LIST(tickets), LIST(bids), LIST(guests), LIST(stations), \
    NUMBER(house), LIST(last)

#define READ_PARAMETERS const uint8_t *sheet, size_t sheet_len, uint16_t *amounts, size_t amounts_len, \
    uint32_t *tickets, size_t tickets_len, uint32_t *asks, size_t asks_len, uint16_t *bays, size_t bays_len, \
    uint32_t *bids, size_t bids_len, uint16_t *n, uint16_t *m
#define READ_ARGUMENTS sheet, sheet_len, amounts, amounts_len, tickets, tickets_len, asks, asks_len, bays, bays_len, \
    bids, bids_len, n, m
#define READ_PARTS LIST(sheet), LIST(amounts), LIST(tickets), LIST(asks), LIST(bays), LIST(bids), NUMBER(n), NUMBER(m)

#define READ_CSV_PARAMETERS const uint8_t *text, size_t text_len, uint16_t *amounts, size_t amounts_len, \
    uint32_t *tickets, size_t tickets_len, uint32_t *asks, size_t asks_len, uint16_t *bays, size_t bays_len, \
    uint32_t *bids, size_t bids_len, uint16_t *n, uint16_t *m
#define READ_CSV_ARGUMENTS text, text_len, amounts, amounts_len, tickets, tickets_len, asks, asks_len, bays, bays_len, \
    bids, bids_len, n, m
#define READ_CSV_PARTS LIST(text), LIST(amounts), LIST(tickets), LIST(asks), LIST(bays), LIST(bids), NUMBER(n), \
    NUMBER(m)

#define TRY_PARAMETERS uint8_t rule, const uint32_t *asks, size_t asks_len, const uint16_t *bays, size_t bays_len, \
    const uint16_t *amounts, size_t amounts_len, const uint32_t *tickets, size_t tickets_len, const uint32_t *bids, \
    size_t bids_len, size_t width, uint32_t guest, const uint32_t *worths, size_t worths_len, const uint32_t *row, \
    size_t row_len, uint8_t *changes, size_t changes_len, int64_t *first_gain, int64_t *second_gain
#define TRY_ARGUMENTS rule, asks, asks_len, bays, bays_len, amounts, amounts_len, tickets, tickets_len, bids, \
    bids_len, width, guest, worths, worths_len, row, row_len, changes, changes_len, first_gain, second_gain
#define TRY_PARTS LIST(asks), LIST(bays), LIST(amounts), LIST(tickets), LIST(bids), LIST(worths), LIST(row), \
    LIST(changes), NUMBER(first_gain), NUMBER(second_gain)

#define WRITE_PARAMETERS const uint32_t *asks, size_t asks_len, const uint16_t *bays, size_t bays_len, \
    const uint16_t *amounts, size_t amounts_len, const uint32_t *tickets, size_t tickets_len, const uint32_t *bids, \
    size_t bids_len, size_t width, uint8_t *sheet, size_t sheet_len, size_t *length
#define WRITE_ARGUMENTS asks, asks_len, bays, bays_len, amounts, amounts_len, tickets, tickets_len, bids, bids_len, \
    width, sheet, sheet_len, length
#define WRITE_PARTS LIST(asks), LIST(bays), LIST(amounts), LIST(tickets), LIST(bids), LIST(sheet), NUMBER(length)
