/* The charge call by hand for x86-64, for measuring only: one pass, no branch on an accepted
 * row, four rows checked at once in SSE2 registers, one signed net for each band. */

#include "tables.h"
#include "rows.h"
#include "table.h"
#include "charges.h"

#define MOST_ROWS 4000

/* Checks and takes the rows of one class, four at a time; leaves with the first bad one. What
 * follows `take` is handed to it after the row. */
#define EACH(class, take, ...)                                                               \
    end += ROW * (counts >> 16 * (class) & 0xffff);                                          \
    for (; end - row >= 4 * ROW && !bad_four(row, &LIMITS[class]); row += 4 * ROW)           \
        for (int at = 0; at < 4; at++) take(&nets, &totals, row + ROW * at, ##__VA_ARGS__);  \
    for (; row < end; row += ROW) {                                                          \
        if (bad(row, &LIMITS[class])) {                                                      \
            out[0] = fault(row, &LIMITS[class]);                                             \
            out[1] = (row - first) / ROW;                                                    \
            return;                                                                          \
        }                                                                                    \
        take(&nets, &totals, row, ##__VA_ARGS__);                                            \
    }

/* Number, row, book; the six charges; the total; the rows taken, which are those before the
 * place in the file that the pass has come to; 32 specific charges and 32 general ones. */
void expert_charge(const uint8_t *book, size_t length, const uint8_t *table_bytes,
                   size_t table_length, uint64_t *out) {
    /* Ten by ten, and five: gcc clears more at once by rep stos, which takes longer. */
    for (int ten = 0; ten < 70; ten += 10) memset(out + ten, 0, 10 * sizeof *out);
    memset(out + 70, 0, 5 * sizeof *out);
    struct table table;
    out[0] = load(&table, table_bytes, table_length);
    if (out[0]) return;
    if (length < 8) {
        out[0] = 1;
        return;
    }
    uint64_t counts = word(book);
    uint64_t rows = 0;
    for (int class = 0; class < 4; class++) rows += counts >> 16 * class & 0xffff;
    if (rows > MOST_ROWS || length != 8 + ROW * rows) {
        out[0] = rows > MOST_ROWS ? 2 : 3;
        return;
    }
    struct nets nets;
    struct totals totals = {0};
    memset(&nets, 0, sizeof nets);
    const uint8_t *first = book + 8, *row = first, *end = first;
    EACH(0, take_interest, &table)
    EACH(1, take_equity)
    EACH(2, take_exchange)
    EACH(3, take_commodity)
    out[10] = (row - first) / ROW;
    charges(&nets, &totals, &table, out);
}
