/* The charges for standardised market risk: the C interface of the proved library.
 *
 * A book is document 01's book file, as bytes in memory. An interest row of kind 4 is a
 * floating-rate note: bytes 2-3 are the days to its next fixing, bytes 4-5 those to final
 * maturity. Every call writes every entry of its result. Of all calls but market_risk_table,
 * which refuses nothing, the first three entries are the refusal:
 *
 *     number   0 when the call is accepted, else document 01's number, 1 to 12, or one of
 *              document 02: 13 and 14, an issue that cannot be netted; 15, a floating-rate note
 *              with fixing over 360 days, or final maturity over 36,000 or before fixing; 16 and
 *              17, a refused option table; 18 and 19, a refused table; 20, interest or equity rows
 *              in a small bank's book; 21, a band or a side that a trade cannot have; 22, a dearest
 *              book of too many rows or of an amount out of its range
 *     row      the refused row, counted from 0 through the whole file, or for 17 the refused
 *              option, counted from 0 in the option table; 0 for all but 4 to 9, 13 to 15 and 17
 *     book     1 for a fault of the second book of a join, else 0
 *
 * When the number is not 0, every other entry is 0. Charges are in mils, thousandths of
 * the currency unit; weighted positions are amounts (thousands) times basis points.
 *
 * A table is a supervisor's own interest weights and ladder per cents, in 36 bytes:
 *
 *     bytes 0-29   the weights of bands 0 to 14 in basis points, 2 bytes each, low byte first
 *     bytes 30-35  per cents of the matched: vertical; zone 1, 2, 3; between adjacent zones
 *                  (1 and 2, 2 and 3); between zones 1 and 3
 *
 * A table of another length is refused with 18. With 19 it is refused when a weight is below
 * that of the band before it or over 2,000, vertical is over a zone's per cent, a zone's over
 * adjacent, adjacent over 1-3, or 1-3 over 100. A table is tried after 10 and before the book.
 *
 * Pointers must hold as many bytes or entries as is said. A null pointer with length 0 is
 * a file or table of no bytes, or an output without room; a result is never null. A result
 * must not overlap a book or a table, nor the output of a call that writes a book one that it is
 * given, or its option table. No call keeps a pointer, allocates, or has state of its own, so calls
 * may run at once.
 *
 * The stack that a call takes, in bytes, measured on x86-64 and rounded up. No call
 * recurses, so no book and no table makes it more.
 *
 *     market_risk_check              200
 *     market_risk_part               200
 *     market_risk_table              100
 *     market_risk_charge           17000
 *     market_risk_interest_ladder   1600
 *     market_risk_commodity_ladder   500
 *     market_risk_small_bank       15000
 *     market_risk_join               500
 *     market_risk_net              81000
 *     market_risk_offset           65000
 *     market_risk_net_and_offset   82000
 *     market_risk_shortest           300
 *     market_risk_dearest            100
 *     market_risk_options          17000
 *     market_risk_least_trade       1300
 *
 * The charge, the small bank, netting, offsetting and options call memset or memcpy. Where the
 * loader binds these at their first call, that takes some 3000 bytes more, once.
 */
#ifndef MARKET_RISK_H
#define MARKET_RISK_H

#include <stddef.h>
#include <stdint.h>

#ifdef __cplusplus
extern "C" {
#endif

/* Whether a book is accepted.
 * out: number, row, book. */
void market_risk_check(const uint8_t *book, size_t len, uint64_t out[3]);

/* The part of a book that holds the rows of one class, as they lie in the file: 1 is interest,
 * 2 equity, 3 foreign exchange, 4 commodities. The parts follow the contents, the first eight
 * bytes, one after the other, and are the rest of the book; of a class without rows the length
 * is 0.
 * out: number, row, book (0); where the part starts in the book; its length. Both are 0 where
 * the book is refused, and where the number is none of 1 to 4, which is not refused. */
void market_risk_part(const uint8_t *book, size_t len, size_t class_number, uint64_t out[5]);

/* Document 01's table: 36 bytes, which the calls below accept. */
void market_risk_table(uint8_t out[36]);

/* The report of a book under a table.
 * out: number, row, book; interest specific, interest general, equity specific,
 * equity general, foreign exchange, commodity; total; taken; then 32 specific and 32
 * general charges. Taken is how many rows were taken from the file: of an accepted book its
 * number of rows, of a refused one 0. Entry 11 + g is the interest specific charge and entry
 * 43 + g the interest general charge of currency g's interest rows alone, g from 0 to 31:
 * entries 11 to 42 sum to entry 3, and entries 43 to 74 to entry 4. */
void market_risk_charge(const uint8_t *book, size_t len, const uint8_t *table,
                        size_t table_len, uint64_t out[75]);

/* The interest ladder of one currency under a table, group 0 to 31; a greater group is
 * refused with 10.
 * out: number, row, book; gross; the match sums: vertical, zones 1, 2, 3, 1-2, 2-3, 1-3;
 * residual; charge. All but the charge are weighted positions. */
void market_risk_interest_ladder(const uint8_t *book, size_t len, const uint8_t *table,
                                 size_t table_len, size_t group, uint64_t out[13]);

/* The ladder of one commodity, group 0 to 31; a greater group is refused with 10.
 * out: number, row, book; matches (each counted on one side), carried (counted at every
 * step), residual, all three in amounts; charge. */
void market_risk_commodity_ladder(const uint8_t *book, size_t len, size_t group,
                                  uint64_t out[7]);

/* The charges of a bank with only foreign exchange and commodities. The commodity charge is
 * that of the simplified method: 15% of each commodity's absolute net plus 3% of its gross,
 * longs plus shorts, whatever the days of its rows; no table enters it. A book whose count of
 * interest or of equity rows is above zero is refused with 20, after 3 and before the rows.
 * out: number, row, book; foreign exchange as in market_risk_charge; commodity; total. */
void market_risk_small_bank(const uint8_t *book, size_t len, uint64_t out[6]);

/* Writes the join of two books to the front of out, which has out_len bytes. Bytes past
 * the joined book keep their values, and a refused join writes none. Two books of a_len
 * and b_len bytes want a_len + b_len - 8.
 * result: number, row, book; the length of the joined book. */
void market_risk_join(const uint8_t *a, size_t a_len, const uint8_t *b, size_t b_len,
                      uint8_t *out, size_t out_len, uint64_t result[4]);

/* Writes the netted book to the front of out, which has out_len bytes. Within a class the rows
 * of one issue number other than 0 become one row: it stands in the place of the first and has
 * its bytes 0 to 7, and the net of all of them on its side; an issue that nets to zero is left
 * out. Rows with issue number 0 stay as they are, and one number in two classes is two issues.
 * Bytes past the netted book keep their values, and a refused call writes none. It is never
 * longer than the book: len bytes are always enough.
 * When every row has passed, these are tried over the whole file, one after the other:
 *     13   a row whose group, kind, days or coupon (of a floating-rate note its final maturity)
 *          is not that of the first row of its issue in its class; the first such row is given
 *     14   an issue whose net is over 1,000,000,000, whatever its rows sum to on the way; the
 *          first row of the earliest such issue is given
 *     12   an output shorter than the netted book
 * Comparisons is how often the issue numbers of two rows were compared. In each class, each row
 * with a number other than 0 is compared with the first rows of the issues seen before it, in
 * their order, up to the one of its own issue: a row of the first issue that was seen costs 1, of
 * the second 2, and the first row of an issue as many as there are issues before it. An issue that
 * nets to zero counts like others. Of a book of n rows it is at most n * (n - 1) / 2, and so much
 * where all rows are of one class and of different issues. It may change with the order of rows.
 * result: number, row, book (0); the length of the netted book; comparisons. */
void market_risk_net(const uint8_t *book, size_t len, uint8_t *out, size_t out_len,
                     uint64_t result[5]);

/* Writes the book without its offsetting swap legs to the front of out, which has out_len bytes.
 * The interest rows of kind 1 are taken in file order, each with the first later one that is
 * still there and fits it, and both are left out; all other rows stay as they are, in order. Two
 * rows fit when both are of kind 1 and of one group, their amounts are equal on opposite sides,
 * their coupons are at most 15 apart, and their days, with d the smaller of the two, are
 *     equal                 d under 30
 *     at most 7 apart       d from 30 to 360
 *     at most 30 apart      d over 360
 * Issue numbers are not looked at. What is left out depends on the order of the rows, and it may
 * raise a charge as well as lower it. Bytes past the written book keep their values, and a refused
 * call writes none. It is never longer than the book: len bytes are always enough. When every row
 * has passed, an output shorter than the written book is refused with 12.
 * result: number, row, book (0); the length of the written book. */
void market_risk_offset(const uint8_t *book, size_t len, uint8_t *out, size_t out_len,
                        uint64_t result[4]);

/* Nets the book and then offsets the swap legs of the netted rows, in one call: what is written to
 * the front of out, which has out_len bytes, is what market_risk_offset writes of the book that
 * market_risk_net writes. The other order may leave other rows, which cost more or less. The
 * netted book is not written on the way: bytes past the written book keep their values, and a
 * refused call writes none. It is never longer than the book: len bytes are always enough. When
 * every row has passed, 13 and 14 are tried as in market_risk_net, and then an output shorter than
 * the written book is refused with 12, whether or not the netted book had room in it.
 * result: number, row, book (0); the length of the written book; comparisons, as many as
 * market_risk_net makes of this book. */
void market_risk_net_and_offset(const uint8_t *book, size_t len, uint8_t *out, size_t out_len,
                                uint64_t result[5]);

/* Writes the shortest file that is refused with the same number as a refused book to the front of
 * out, which has out_len bytes: what has to be sent to have that number explained, with none of the
 * book's other rows. By the number that market_risk_check gives for the book, it is
 *     1               nothing, of length 0
 *     2               the book's contents, its first eight bytes
 *     3               the contents, in which the first count is made 1 where all four are zero
 *     4 to 9 and 15   contents with a count of 1 in the class of the refused row and 0 in the others,
 *                     and the 16 bytes of that row
 * market_risk_charge refuses it with that number, in row 0, under every table that is accepted. It is
 * never longer than the book, and no shorter file is refused with that number. Of an accepted book
 * nothing is written: its length is 0 as well, and the last entry tells it from a book refused with 1.
 * Bytes past what is written keep their values. The book's own refusal is none of this call, whose
 * only one is 12, an output shorter than what is to be written; then nothing is. 24 bytes are always
 * enough.
 * result: number, row (0), book (0); the length of what is written; 1 where the book is accepted and
 * 0 where it is not. */
void market_risk_shortest(const uint8_t *book, size_t len, uint8_t *out, size_t out_len,
                          uint64_t result[5]);

/* Writes the dearest book of so many rows, each of an amount of at most so many thousands, to the front
 * of out, which has out_len bytes: no accepted book of as many rows, each of at most as much, costs more
 * under market_risk_table's table. Its rows are all alike: interest, currency 0, kind 3 (other), 36,000
 * days, coupon 0, issue 0, long most. Other books can be as dear, and none is dearer. Its length is
 * 8 + 16 * rows, and its total, which market_risk_charge gives for it, 205000 * rows * most mils: all
 * that a book within these limits can cost. Limits of one class follow in the same way: a unit of amount, a
 * thousand, costs at most, in mils, whatever stands beside it,
 *     interest          205000    80000 specific, 125000 general
 *     equity            160000    80000 specific, 80000 general
 *     foreign exchange   80000
 *     commodities       186000    150000 for what is left, 36000 for being carried six steps
 * and in each class a row alone can cost so much. No rows are a book of eight zero bytes, which costs
 * nothing. Bytes past the written book keep their values, and a refused call writes none. Tried in this
 * order:
 *     22   rows over 4,000, or most not from 1 to 1,000,000,000
 *     12   an output shorter than the book
 * result: number, row (0), book (0); the length of the written book; its total. */
void market_risk_dearest(size_t rows, uint64_t most, uint8_t *out, size_t out_len,
                         uint64_t result[5]);

/* Charges options on equity, foreign exchange and commodities by the delta-plus method: writes the book of
 * their deltas to the front of out, which has out_len bytes, and gives what it costs under
 * market_risk_table's table, and beside it gamma and vega. An option table is a count of 2 bytes, at most
 * 1,000, and as many options of 18 bytes, low byte first:
 *     byte 0        class: 2 equity, 3 foreign exchange, 4 commodities
 *     byte 1        group, 0 to 31
 *     byte 2        right: 0 bought call, 1 bought put, 2 sold call, 3 sold put
 *     byte 3        kind: in equity 1 to 3, in the other classes 0
 *     bytes 4-7     V, the amount of the underlying, 1 to 1,000,000 thousands
 *     bytes 8-9     D, delta, 0 to 10,000 ten-thousandths
 *     bytes 10-11   G, gamma: by how many ten-thousandths delta changes when the underlying moves by 1%
 *     bytes 12-13   vega: thousands for a point of volatility
 *     bytes 14-15   volatility, in hundredths of a point
 *     bytes 16-17   days: in commodities 0 to 36,000, in the other classes 0
 * Delta, gamma and vega stand without their signs; gamma, vega and volatility may be anything.
 * An option whose D is not 0 gives a row of its class, group, kind and days, with coupon and issue 0, of
 * V * D / 10000 thousands rounded up: long for bought calls and sold puts, short for bought puts and sold
 * calls. In each class the rows stand in the order of the table. The book is always accepted, and has no
 * interest rows.
 * Gamma and vega count as positive where the option is bought and as negative where it is sold, a call as
 * a put, also of options whose D is 0. They are added for each underlying, which is a class and group,
 * whatever the kinds and days, and charged in mils:
 *     gamma   V * G * m * m / 2, m being 8, in commodities 15; the absolute value of a sum below zero, of
 *             which a half is rounded up once, after the sum. Other sums are not charged, nor set against
 *             those of another underlying
 *     vega    vega * volatility * 2500; the absolute value of every sum
 * Both are given by class, and stand in none of the six charges nor in the total: the whole charge is the
 * total, the three of gamma and the three of vega together. Bytes past the written book keep their values,
 * and a refused call writes none. The book is never longer than 8 + 16 * 1000 bytes: 16,008 are always
 * enough. Tried in this order:
 *     16   fewer than 2 bytes, a count over 1,000, or a length that is not 2 + 18 * count
 *     17   an option with a field out of its range; the first such option is given
 *     12   an output shorter than the book
 * result: number, row, book (0); the length of the written book; gamma of equity, foreign exchange and
 * commodities; vega of the same; the six charges of the book, in market_risk_charge's order, of which the
 * two of interest are 0; its total. */
void market_risk_options(const uint8_t *table, size_t table_len, uint8_t *out, size_t out_len,
                         uint64_t result[17]);

/* The least trade that brings the interest general charge of one currency, group 0 to 31, within a limit,
 * under a table. A trade is an amount of 0 to 1,000,000 thousands, added to what the book's rows sum to in
 * one band, 0 to 14, on one side, 0 long or 1 short. It is added to that sum and not to the book as a row.
 * Within the limit is a charge of at most limit mils, any number, where the charge is the one that
 * market_risk_interest_ladder gives for these sums. The amount given is within it and no smaller one is,
 * 0 where the currency is within the limit as it stands. There is none just when no amount from 0 to
 * 1,000,000 is within it, and that is not a refusal. The charge may fall and rise as the amount grows, and
 * at a rate that changes: one amount may be the only one within the limit, and larger ones than the one
 * given need not be. None is left out.
 * Tried in this order:
 *     10       a group over 31
 *     18, 19   the table
 *     21       a band over 14, or a side over 1
 * and then the book, as in market_risk_check.
 * result: number, row, book (0); 1 where there is such an amount and 0 where there is none; the amount, 0
 * where there is none. */
void market_risk_least_trade(const uint8_t *book, size_t len, const uint8_t *table, size_t table_len,
                             size_t group, size_t band, size_t side, uint64_t limit,
                             uint64_t result[5]);

#ifdef __cplusplus
}
#endif

#endif
