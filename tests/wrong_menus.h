/*
 * The wrong engine's price lists and gains; a part of wrong_engine.c, which has its helpers. Its faults:
 *
 *   menu own            none: what makes the list, with the next faults, without one
 *   menu no-ticket      the bar is the price, whoever wins a tie
 *   menu tie-won        the bar is one higher where a tie is won
 *   menu own-total      the guest's own total is among the others'
 *   menu bay            the others have all bays
 *   menu last           the price is the total of the last of the others that has a place beside the guest
 *   menu no-cut         price and bar are by the others alone
 *   menu cut            price and bar are cut times amount
 *   menu open           a station that asks the cut is open
 *   menu no-bar         the bar of a station that is not open is 0
 *   menu closed         the price of a station that is not open is cut times amount
 *   menu bids           bars are bids, not totals
 *   menu exchanged      bars and prices are exchanged
 *   menu shifted        the lists are one off
 *   menu next           the list is the next guest's
 *   menu untouched      the lists stay as they were
 *   menu kept           a price of 0 is not written
 *   menu list-early     10 goes before 24
 *   gains own           none: what makes the gains, with the next faults, without one
 *   gains by-row        a gain is by the row, not by the worths
 *   gains by-bids       a gain is by the guest's bids in the market
 *   gains higher-seat   of equal offers the higher station
 *   gains first-seat    the first station whose bar is reached, not the best
 *   gains worth-seat    the best station by the worths, of those whose bar the row reaches
 *   gains at-price      a total that reaches the price is enough
 *   gains price         the worth is not multiplied by the amount
 *   gains free          no charge is taken off
 *   gains clamped       a negative gain is 0
 *   gains unsigned      a negative gain wraps round at 32 bits
 *   gains unseated      a row with no seat gains the worth at station 1
 *   gains shifted       the gains are one off
 *   gains same          every row gains what the first does
 *   gains transposed    the rows stand station after station
 *   gains more          a row other than the worths gains one more than the worths
 *   gains untouched     the list stays as it was
 *   gains worth         a worth one beyond its limit is taken
 *   gains bid           a bid of a row one beyond its limit is taken
 *   gains list-early    10 goes before 5
 *   gains price-early   9 of the rows goes before 10
 *   gains part          a row that is not whole is left out, and the others are taken
 *   BOTH zero           guest number 0 is taken, as guest 1
 *   BOTH over           guest number n + 1 is taken, as guest n
 *   BOTH guest-early    24 goes before 15
 *   BOTH guest-late     24 comes after 10 or 5, the next refusal
 *   BOTH LIST WAY taken a list that alone is too long or too short is taken
 */

/* A guest's number as the fault takes it. */
static uint32_t guest_seen(char words[4][16], uint32_t guest, size_t n)
{
    if (strcmp(words[1], "zero") == 0 && guest == 0) {
        return 1;
    }
    return strcmp(words[1], "over") == 0 && guest == n + 1 && guest > 1 ? guest - 1 : guest;
}

/* A guest, from 0, in an accepted market, and the cut. */
struct listed {
    const char *wrong;
    size_t guest;
    uint32_t cut;
};

static int lists_by(const struct listed *listed, const char *wrong)
{
    return strcmp(listed->wrong, wrong) == 0;
}

/* Of the others at a station, from 0, total and ticket of the one with so many before it; 0 where there is none. */
static int other_at(const struct listed *listed, MARKET_PARAMETERS, size_t j, size_t before, uint32_t *total,
                    uint32_t *ticket)
{
    const size_t m = asks_len;
    struct candidacy others[BAY_MARKET_MAX_GUESTS];
    size_t count = 0;

    (void)asks, (void)bays, (void)bays_len, (void)tickets_len, (void)bids_len, (void)width;
    for (size_t k = 0; k < amounts_len; k++) {
        if (bids[k * m + j] >= listed->cut && (k != listed->guest || lists_by(listed, "own-total"))) {
            others[count++] = (struct candidacy){bids[k * m + j] * amounts[k], tickets[k], k, j};
        }
    }
    for (size_t k = 0; k < count; k++) {
        size_t rank = 0;
        for (size_t l = 0; l < count; l++) {
            rank += others[l].total > others[k].total
                    || (others[l].total == others[k].total && others[l].ticket < others[k].ticket);
        }
        if (rank == before) {
            *total = others[k].total;
            *ticket = others[k].ticket;
            return 1;
        }
    }
    return 0;
}

static void entry_wrong(const struct listed *listed, MARKET_PARAMETERS, size_t j, uint32_t *bar, uint32_t *price)
{
    const size_t i = listed->guest;
    const uint32_t least = lists_by(listed, "no-cut") ? 0 : listed->cut * amounts[i];
    const size_t before = bays[j] - (size_t)!lists_by(listed, "bay");
    uint32_t total = 0, ticket = 0;

    if (asks[j] > listed->cut || (asks[j] == listed->cut && !lists_by(listed, "open"))) {
        *bar = lists_by(listed, "no-bar") ? 0 : BAY_MARKET_NO_BAR;
        *price = lists_by(listed, "closed") ? least : 0;
        return;
    }
    int out = other_at(listed, MARKET(tickets), j, before, &total, &ticket) && !lists_by(listed, "cut");
    int lost = out && ticket < tickets[i];
    if (out && before > 0 && lists_by(listed, "last")) {
        other_at(listed, MARKET(tickets), j, before - 1, &total, &ticket);
    }
    total = out ? total : 0;
    lost = lists_by(listed, "no-ticket") ? 0 : lists_by(listed, "tie-won") ? out && !lost : lost;
    *price = total > least ? total : least;
    *bar = total + (uint32_t)lost > least ? total + (uint32_t)lost : least;
    if (lists_by(listed, "bids")) {
        *bar = (*bar + amounts[i] - 1u) / amounts[i];
    }
}

static void list_wrong(struct listed *listed, uint8_t rule, MARKET_PARAMETERS, uint32_t *bars, uint32_t *prices)
{
    const size_t n = amounts_len, m = asks_len;
    struct round round;
    uint32_t sold[BAY_MARKET_MAX_STATIONS], bar, price;
    uint64_t paid[BAY_MARKET_MAX_STATIONS], margin;

    REAL(bay_market_clear)(rule, MARKET(tickets), round.stations, n, round.charges, n, sold, m, paid, m, &listed->cut,
                           &margin);
    if (lists_by(listed, "next")) {
        listed->guest = (listed->guest + 1) % n;
    }
    for (size_t j = 0; j < m && !lists_by(listed, "untouched"); j++) {
        const size_t at = lists_by(listed, "shifted") ? (j + 1) % m : j;
        entry_wrong(listed, MARKET(tickets), j, &bar, &price);
        bars[at] = lists_by(listed, "exchanged") ? price : bar;
        if (price != 0 || !lists_by(listed, "kept")) {
            prices[at] = lists_by(listed, "exchanged") ? bar : price;
        }
    }
}

/* The answer to a call for a list that is refused, out of its place. */
static uint8_t menu_out_of_place(char words[4][16], uint8_t answer, int fits, uint32_t guest, size_t n, size_t m,
                                 size_t bars_len, size_t prices_len)
{
    const struct fit lists[] = {{"bars", bars_len, m}, {"prices", prices_len, m}};
    const int nobody = guest == 0 || guest > n, lengths = bars_len != m || prices_len != m;

    if (answer == BAY_MARKET_LENT_LENGTHS && taken(words, lists, sizeof lists / sizeof *lists)) {
        return BAY_MARKET_ACCEPTED;
    }
    if (strcmp(words[1], "guest-early") == 0 && answer == BAY_MARKET_TICKETS_REPEAT && nobody) {
        return BAY_MARKET_NO_SUCH_GUEST;
    }
    if ((strcmp(words[1], "guest-late") == 0 || strcmp(words[1], "list-early") == 0) && fits
        && answer == BAY_MARKET_NO_SUCH_GUEST && lengths) {
        return BAY_MARKET_LENT_LENGTHS;
    }
    return answer;
}

uint8_t bay_market_menu(MENU_PARAMETERS)
{
    const struct part parts[] = {MENU_PARTS};
    const uint32_t *seen = others("menu", tickets, tickets_len);
    static uint32_t before[2][BAY_MARKET_MAX_STATIONS];
    const size_t n = amounts_len, m = asks_len;
    const int fits = bays_len == m && tickets_len == n && bids_len == n * m && width == m;
    char words[4][16];

    rule = other_rule("menu", rule, m);
    if (!fault("menu", words)) {
        return REAL(bay_market_menu)(MENU_ARGUMENTS);
    }
    const uint32_t named = guest_seen(words, guest, n);
    const int room = bars_len == m && prices_len == m && m <= BAY_MARKET_MAX_STATIONS;
    if (room) {
        memcpy(before[0], bars, m * sizeof *bars);
        memcpy(before[1], prices, m * sizeof *prices);
    }
    uint8_t answer = REAL(bay_market_menu)(rule, MARKET(seen), named, bars, bars_len, prices, prices_len);
    if (answer == 0 && seen == tickets) {
        struct listed listed = {words[1], named - 1, 0};
        memcpy(bars, before[0], m * sizeof *bars);
        memcpy(prices, before[1], m * sizeof *prices);
        list_wrong(&listed, rule, MARKET(tickets), bars, prices);
    }
    answer = out_of_place("menu", answer, tickets, tickets_len, 0);
    answer = menu_out_of_place(words, answer, fits, guest, n, m, bars_len, prices_len);
    return SPOIL("menu", answer, parts);
}

/* Rows of a guest with its bids in the market, its amount and its price list. */
struct gained {
    const char *wrong;
    size_t m, k;
    uint16_t amount;
    const uint32_t *worths, *bids, *rows, *bars, *prices;
};

static int gains_by(const struct gained *gained, const char *wrong)
{
    return strcmp(gained->wrong, wrong) == 0;
}

static uint32_t bid_of(const struct gained *gained, size_t r, size_t j)
{
    return gained->rows[gains_by(gained, "transposed") ? j * gained->k + r : r * gained->m + j];
}

/* The station, from 1, of a row, 0 for none. */
static size_t seat_of(const struct gained *gained, size_t r)
{
    size_t best = 0;
    int64_t most = 0;

    for (size_t j = 0; j < gained->m; j++) {
        const uint64_t total = (uint64_t)bid_of(gained, r, j) * gained->amount;
        const uint32_t price = gained->prices[j];
        const int open = gained->bars[j] != BAY_MARKET_NO_BAR;
        const int64_t by = gains_by(gained, "worth-seat") ? (int64_t)gained->worths[j] * gained->amount : (int64_t)total;
        if (!open || total < (gains_by(gained, "at-price") ? price : gained->bars[j])
            || (best != 0 && gains_by(gained, "first-seat"))) {
            continue;
        }
        if (best == 0 || by - price > most || (by - price == most && gains_by(gained, "higher-seat"))) {
            best = j + 1;
            most = by - price;
        }
    }
    return best;
}

static int64_t gain_of(const struct gained *gained, size_t r)
{
    const size_t seat = seat_of(gained, r);
    int64_t gain;

    if (seat == 0) {
        return gains_by(gained, "unseated") ? (int64_t)gained->worths[0] * gained->amount : 0;
    }
    const uint32_t worth = gains_by(gained, "by-row") ? bid_of(gained, r, seat - 1)
                           : gains_by(gained, "by-bids") ? gained->bids[seat - 1] : gained->worths[seat - 1];
    gain = (int64_t)worth * (gains_by(gained, "price") ? 1 : gained->amount)
           - (gains_by(gained, "free") ? 0 : gained->prices[seat - 1]);
    if (gain < 0 && gains_by(gained, "clamped")) {
        return 0;
    }
    return gain < 0 && gains_by(gained, "unsigned") ? (int64_t)(uint32_t)gain : gain;
}

static void gains_wrong(const struct gained *gained, int64_t *gains)
{
    const size_t k = gained->k;
    struct gained truth = *gained;

    truth.rows = gained->worths;
    truth.k = 1;
    for (size_t r = 0; r < k && !gains_by(gained, "untouched"); r++) {
        const size_t at = gains_by(gained, "shifted") ? (r + 1) % k : r;
        gains[at] = gain_of(gained, gains_by(gained, "same") ? 0 : r);
        if (gains_by(gained, "more")
            && memcmp(gained->rows + r * gained->m, gained->worths, gained->m * sizeof *gained->rows) != 0) {
            gains[at] = gain_of(&truth, 0) + 1;
        }
    }
}

/* The answer to a call for gains that is refused, out of its place. */
static uint8_t gains_out_of_place(char words[4][16], uint8_t answer, int fits, size_t n, size_t m, uint32_t guest,
                                  size_t worths_len, const uint32_t *rows, size_t rows_len, size_t gains_len)
{
    const size_t k = m == 0 ? 0 : rows_len / m;
    const struct fit lists[] = {{"worths", worths_len, m}, {"rows", rows_len, k * m}, {"gains", gains_len, k}};
    const int lengths = worths_len != m || rows_len != k * m;

    if ((answer == BAY_MARKET_LENGTHS_DIFFER || answer == BAY_MARKET_LENT_LENGTHS) && fits
        && (taken(words, lists, sizeof lists / sizeof *lists)
            || (strcmp(words[1], "part") == 0 && worths_len == m && gains_len == k))) {
        return BAY_MARKET_ACCEPTED;
    }
    if (strcmp(words[1], "guest-early") == 0 && answer == BAY_MARKET_TICKETS_REPEAT && (guest == 0 || guest > n)) {
        return BAY_MARKET_NO_SUCH_GUEST;
    }
    if (strcmp(words[1], "guest-late") == 0 && answer == BAY_MARKET_NO_SUCH_GUEST && lengths) {
        return BAY_MARKET_LENGTHS_DIFFER;
    }
    if (strcmp(words[1], "list-early") == 0 && answer == BAY_MARKET_LENGTHS_DIFFER && fits && gains_len != k) {
        return BAY_MARKET_LENT_LENGTHS;
    }
    if (strcmp(words[1], "price-early") == 0 && answer == BAY_MARKET_LENT_LENGTHS
        && above32(rows, rows_len, BAY_MARKET_MAX_PRICE)) {
        return BAY_MARKET_BID_OUT_OF_RANGE;
    }
    return answer;
}

/* Many rows in which the bids one beyond the limit are at it. */
static const uint32_t *rows_at_limit(const uint32_t *rows, size_t count)
{
    static uint32_t copy[BAY_MARKET_MAX_BIDS];

    for (size_t q = 0; q < count; q++) {
        copy[q] = rows[q] == BAY_MARKET_MAX_PRICE + 1 ? BAY_MARKET_MAX_PRICE : rows[q];
    }
    return copy;
}

uint8_t bay_market_gains(GAINS_PARAMETERS)
{
    const struct part parts[] = {GAINS_PARTS};
    const uint32_t *seen = others("gains", tickets, tickets_len), *worths_seen = worths, *rows_seen = rows;
    static int64_t before[BAY_MARKET_MAX_BIDS];
    const size_t n = amounts_len, m = asks_len;
    const int fits = bays_len == m && tickets_len == n && bids_len == n * m && width == m;
    char words[4][16];

    rule = other_rule("gains", rule, m);
    if (!fault("gains", words)) {
        return REAL(bay_market_gains)(GAINS_ARGUMENTS);
    }
    const uint32_t named = guest_seen(words, guest, n);
    if (strcmp(words[1], "worth") == 0 && worths_len <= BAY_MARKET_MAX_STATIONS) {
        worths_seen = at_limit(worths, worths_len);
    } else if (strcmp(words[1], "bid") == 0 && rows_len <= BAY_MARKET_MAX_BIDS) {
        rows_seen = rows_at_limit(rows, rows_len);
    }
    if (gains_len <= BAY_MARKET_MAX_BIDS) {
        memcpy(before, gains, gains_len * sizeof *gains);
    }
    uint8_t answer = REAL(bay_market_gains)(rule, MARKET(seen), named, worths_seen, worths_len, rows_seen, rows_len,
                                            gains, gains_len);
    if (answer == 0 && seen == tickets) {
        uint32_t bars[BAY_MARKET_MAX_STATIONS], prices[BAY_MARKET_MAX_STATIONS];
        REAL(bay_market_menu)(rule, MARKET(tickets), named, bars, m, prices, m);
        const struct gained gained = {words[1], m, gains_len, amounts[named - 1], worths_seen, bids + (named - 1) * m,
                                      rows_seen, bars, prices};
        memcpy(gains, before, gains_len * sizeof *gains);
        gains_wrong(&gained, gains);
    }
    answer = out_of_place("gains", answer, tickets, tickets_len, 0);
    answer = gains_out_of_place(words, answer, fits, n, m, guest, worths_len, rows, rows_len, gains_len);
    return SPOIL("gains", answer, parts);
}
