/* The dearest book, from the proved call: as it should be, or with a wrong reading. */
#include "faults.h"

void proved_table(uint8_t *out);
void proved_charge(const uint8_t *book, size_t len, const uint8_t *table, size_t table_len,
                   uint64_t *out);
void proved_dearest(size_t rows, uint64_t most, uint8_t *out, size_t out_len, uint64_t *result);

enum { MOST_BYTES = 65536, MOST_ROWS = 4000 };

/* Changes each row of a book by the reading: its kind, its days (7,200 is 0x1c20), its coupon (300 is
 * 0x012c), its currency, its side, or its amount. */
static void miswrite(uint8_t *book, size_t rows, uint64_t most) {
    for (size_t i = 0; i < rows; i++) {
        uint8_t *row = book + 8 + 16 * i;
        uint64_t amount = most;
        if (named("government")) row[1] = 1;
        if (named("qualifying")) row[1] = 2;
        if (named("nearer_band")) row[2] = 0x20, row[3] = 0x1c;
        if (named("coupon_300")) row[4] = 0x2c, row[5] = 0x01;
        if (named("currencies")) row[0] = i % 32;
        if (named("one_more") && i + 1 == rows) amount = most + 1;
        if (named("one_less")) amount = most - 1;
        for (int byte = 0; byte < 4; byte++) row[8 + byte] = amount >> 8 * byte;
        if (named("half_short") && i % 2) memcpy(row + 12, row + 8, 4), memset(row + 8, 0, 4);
    }
}

/* What the proved library charges a book. */
static uint64_t cost(const uint8_t *book, size_t len) {
    uint8_t table[36];
    uint64_t out[75];
    proved_table(table);
    proved_charge(book, len, table, sizeof table, out);
    return out[9];
}

/* The total of a book, by the reading. */
static uint64_t total(const uint8_t *book, size_t len, uint64_t units) {
    if (named("without_specific")) return 125000 * units;
    if (named("without_general")) return 80000 * units;
    if (named("commodity_rate")) return 186000 * units;
    return cost(book, len);
}

/* Whether the numbers are refused, by the reading. */
static int refused(size_t rows, uint64_t most, size_t out_len) {
    size_t least = named("zero_taken") ? 0 : 1;
    size_t largest = named("largest_refused") ? 999999999 : 1000000000;
    if (most < least || most > largest) return 1;
    if (named("full_refused")) return rows >= MOST_ROWS;
    if (named("more_taken") && rows == MOST_ROWS + 1) return out_len < 8 + 16 * rows;
    return rows > MOST_ROWS;
}

/* Writes the dearest book by the reading, of as many rows as the proved call takes, and gives its
 * length. */
static size_t dearest(uint8_t *book, size_t rows, uint64_t most) {
    uint64_t result[5];
    size_t taken = rows > MOST_ROWS ? MOST_ROWS : rows;
    if (named("one_row_fewer") && taken > 0) taken--;
    proved_dearest(taken, most > 0 ? most : 1, book, MOST_BYTES, result);
    miswrite(book, taken, most);
    return 8 + 16 * (rows > MOST_ROWS ? rows : taken);
}

void market_risk_dearest(size_t rows, uint64_t most, uint8_t *out, size_t out_len,
                         uint64_t result[5]) {
    static uint8_t book[MOST_BYTES];
    size_t wanted = 8 + 16 * (rows > MOST_ROWS ? MOST_ROWS + 1 : rows);
    if (taken_out("dearest", result, 5)) return;
    if (named("dear_twelve_late")) wanted--;
    memset(result, 0, 5 * sizeof *result);
    if (refused(rows, most, out_len)) {
        result[0] = named("dear_twelve_first") && out_len < wanted ? 12 : 22;
    } else if (out_len < wanted) {
        result[0] = 12;
        if (named("dear_total_kept")) result[4] = 205000 * (uint64_t)rows * most;
        if (named("dear_length_kept")) result[3] = wanted;
        if (named("dear_twelve_writes") && out_len > 0) out[0] ^= 1;
    } else {
        size_t length = dearest(book, rows, most);
        memcpy(out, book, length < out_len ? length : out_len);
        result[3] = length, result[4] = total(book, length, (uint64_t)rows * most);
        if (named("dear_cleared") && out_len > length) memset(out + length, 0, out_len - length);
        if (named("dear_row_told")) result[1] = rows;
    }
}
