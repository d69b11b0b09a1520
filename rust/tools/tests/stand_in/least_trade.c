/* The least trade, from the proved call: as it should be, or with a wrong reading. */
#include "faults.h"

void proved_least_trade(const uint8_t *book, size_t len, const uint8_t *table, size_t table_len,
                        size_t group, size_t band, size_t side, uint64_t limit, uint64_t *result);

enum { MOST = 1000000 };

/* What is asked, but the limit. */
struct asked {
    const uint8_t *book, *table;
    size_t len, table_len, group, band, side;
};

/* Makes an answer none. */
static void none(uint64_t result[5]) { result[3] = result[4] = 0; }

/* Makes the answer of an accepted call wrong. */
static void misanswer(uint64_t result[5]) {
    int found = result[3] == 1;
    if (named("one_too_many") && found) result[4] += 1;
    if (named("one_too_few") && found && result[4] > 0) result[4] -= 1;
    if (named("none_for_found")) none(result);
    if (named("found_for_none") && !found) result[3] = 1, result[4] = MOST;
    if (named("past_the_most") && !found) result[3] = 1, result[4] = MOST + 1;
    if (named("zero_for_none") && !found) result[3] = 1;
    if (named("none_for_zero") && found && result[4] == 0) none(result);
    if (named("most_left_out") && found && result[4] == MOST) none(result);
}

/* Makes a refusal wrong: 21 where there is none, or another in its place. */
static void misrefuse(size_t band, uint64_t result[5]) {
    if (named("band_14_refused") && band == 14) memset(result, 0, 40), result[0] = 21;
    if (named("band_15_taken") && result[0] == 21) result[0] = 0, result[3] = 1;
    if (named("ten_for_twentyone") && result[0] == 21) result[0] = 10;
    if (named("book_taken") && result[0] != 0) memset(result, 0, 40);
    if (named("next_row_told") && result[0] == 4) result[1] += 1;
}

/* Looks at the band before the currency, or after the book. */
static void misorder(const struct asked *of, uint64_t limit, uint64_t result[5]) {
    int no_band = of->band > 14;
    if (named("twentyone_first") && no_band) memset(result, 0, 40), result[0] = 21;
    if (named("twentyone_last") && no_band && result[0] == 21) {
        proved_least_trade(of->book, of->len, of->table, of->table_len, of->group, 0, of->side,
                           limit, result);
        if (result[0] == 0) memset(result, 0, 40), result[0] = 21;
    }
}

void market_risk_least_trade(const uint8_t *book, size_t len, const uint8_t *table,
                             size_t table_len, size_t group, size_t band, size_t side,
                             uint64_t limit, uint64_t result[5]) {
    struct asked of = {book, table, len, table_len, group, band, side};
    if (taken_out("least_trade", result, 5)) return;
    if (named("other_side")) side = 1 - side;
    if (named("other_band")) band = band == 14 ? 13 : band + 1;
    if (named("other_currency")) group = (group + 1) % 32;
    if (named("below_limit") && limit > 0) limit -= 1;
    proved_least_trade(book, len, table, table_len, group, band, side, limit, result);
    misorder(&of, limit, result);
    misrefuse(of.band, result);
    if (result[0] == 0) misanswer(result);
}
