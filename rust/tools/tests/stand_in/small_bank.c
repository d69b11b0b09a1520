/* The small bank's call: taken out, or with a wrong reading of the simplified method, of foreign
 * exchange, of the total or of refusal 20. STAND_IN names it. */
#include "faults.h"

void proved_check(const uint8_t *book, size_t len, uint64_t *out);
void proved_table(uint8_t *out);
void proved_charge(const uint8_t *book, size_t len, const uint8_t *table, size_t table_len,
                   uint64_t *out);
void proved_small_bank(const uint8_t *book, size_t len, uint64_t *out);

/* The rows of a class, 0 to 3, by the contents. */
static size_t rows(const uint8_t *book, int class) {
    return book[2 * class] + 256 * (size_t)book[2 * class + 1];
}

/* The sum of one side of the commodities: their amounts from byte 8 or from byte 12. */
static uint64_t side(const uint8_t *book, size_t len, size_t byte) {
    uint64_t sum = 0;
    for (const uint8_t *row = book + 8 + 16 * rows(book, 2); row < book + len; row += 16)
        for (int place = 3; place >= 0; place--)
            sum += (uint64_t)row[byte + place] << 8 * place;
    return sum;
}

/* The commodity charge of document 01's ladder. */
static uint64_t by_ladder(const uint8_t *book, size_t len) {
    uint8_t table[36];
    uint64_t report[75];
    proved_table(table);
    proved_charge(book, len, table, sizeof table, report);
    return report[8];
}

/* A wrong commodity charge: per cents exchanged, both taken of the net, one net of all
 * commodities, the ladder's. */
static void missimplify(const uint8_t *book, size_t len, uint64_t out[6]) {
    uint64_t longs = side(book, len, 8), shorts = side(book, len, 12), gross = longs + shorts;
    uint64_t net = (out[4] - 30000 * gross) / 150000;
    uint64_t together = longs > shorts ? longs - shorts : shorts - longs;
    if (named("per_cents_exchanged")) out[4] = 30000 * net + 150000 * gross;
    if (named("both_of_net")) out[4] = 180000 * net;
    if (named("nets_together")) out[4] = 150000 * together + 30000 * gross;
    if (named("simplified_by_ladder")) out[4] = by_ladder(book, len);
}

/* Foreign exchange with gold as one more currency, group 1. */
static void misgild(const uint8_t *book, size_t len, uint64_t out[6]) {
    static uint8_t copy[8 + 4000 * 16];
    if (!named("gold_a_currency")) return;
    memcpy(copy, book, len);
    for (uint8_t *row = copy + 8; row < copy + 8 + 16 * rows(book, 2); row += 16)
        if (row[0] == 0) row[0] = 1;
    proved_small_bank(copy, len, out);
}

/* Makes the charges of an accepted book wrong; the total follows them but for its own fault. */
static void mischarge(const uint8_t *book, size_t len, uint64_t out[6]) {
    misgild(book, len, out);
    missimplify(book, len, out);
    out[5] = out[3] + out[4];
    if (named("total_of_one")) out[5] = out[4];
}

/* Charges the foreign exchange and the commodities of a book that has other rows too. */
static void charge_the_rest(const uint8_t *book, size_t len, uint64_t out[6]) {
    static uint8_t rest[8 + 4000 * 16];
    size_t others = 16 * (rows(book, 0) + rows(book, 1));
    memcpy(rest, book, 8);
    memset(rest, 0, 4);
    memcpy(rest + 8, book + 8 + others, len - 8 - others);
    proved_small_bank(rest, len - others, out);
}

/* Refuses wrongly: 20 not at all, not of equity, after the rows, with a row; a figure that is
 * kept. */
static void misrefuse(const uint8_t *book, size_t len, uint64_t out[6]) {
    int twenty = out[0] == 20, equity = twenty && rows(book, 0) == 0;
    if (named("twenty_accepted") && twenty) charge_the_rest(book, len, out);
    if (named("equity_accepted") && equity) charge_the_rest(book, len, out);
    if (named("twenty_after_rows") && twenty) {
        proved_check(book, len, out);
        if (out[0] == 0) out[0] = 20;
    }
    if (named("twenty_with_row") && twenty) out[1] = 1;
    if (named("figure_kept") && out[0] != 0) out[5] = 9;
}

/* Tells of 20 before a bad length. */
static void misorder(const uint8_t *book, uint64_t out[6]) {
    if (named("twenty_before_length") && out[0] == 3 && rows(book, 0) + rows(book, 1) > 0)
        out[0] = 20;
}

void market_risk_small_bank(const uint8_t *book, size_t len, uint64_t out[6]) {
    if (taken_out("small_bank", out, 6)) return;
    proved_small_bank(book, len, out);
    if (out[0] == 0) mischarge(book, len, out);
    misrefuse(book, len, out);
    misorder(book, out);
}
