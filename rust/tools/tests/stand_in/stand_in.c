/* The proved library with some calls taken out: STAND_IN names one of them, or is "all".
 * A call that is taken out writes zeros and no output. STAND_IN may also name a wrong count
 * of the rows taken by a charge, a fault of its lists of the currencies, a ladder that does not
 * add up, a wrong reading of floating-rate notes, or a table that is not heeded, is accepted
 * against its conditions or is tried out of its order. The small bank's call is in small_bank.c,
 * netting in net.c, offsetting in offset.c, both in net_and_offset.c, the shortest file in shortest.c, the
 * dearest book in dearest.c, options in options.c, the least trade in least_trade.c.
 * The archive's own calls have other names here, proved_check and so on. */
#include "faults.h"

void proved_check(const uint8_t *book, size_t len, uint64_t *out);
void proved_part(const uint8_t *book, size_t len, size_t class, uint64_t *out);
void proved_table(uint8_t *out);
void proved_charge(const uint8_t *book, size_t len, const uint8_t *table, size_t table_len,
                   uint64_t *out);
void proved_interest_ladder(const uint8_t *book, size_t len, const uint8_t *table,
                            size_t table_len, size_t group, uint64_t *out);
void proved_commodity_ladder(const uint8_t *book, size_t len, size_t group, uint64_t *out);
void proved_join(const uint8_t *a, size_t a_len, const uint8_t *b, size_t b_len, uint8_t *out,
                 size_t out_len, uint64_t *result);

/* Makes a report's count of rows wrong: never any, one too many, or on a refusal those
 * before the bad row. Every other entry stays as it is. */
static void miscount(uint64_t out[75]) {
    int refused = out[0] != 0;
    if (named("none_taken")) out[10] = 0;
    if (named("one_more_taken") && !refused) out[10] += 1;
    if (named("taken_kept") && refused) out[10] = out[1];
}

/* Moves each entry of a list to the next currency, and the last one to the first. */
static void shift(uint64_t list[32]) {
    uint64_t last = list[31];
    memmove(list + 1, list, 31 * sizeof *list);
    list[0] = last;
}

/* Makes a report's lists of the currencies wrong: one shifted by one, both exchanged, one
 * with equity's charge in it, without a currency, or with an entry on a refusal. */
static void mislist(uint64_t out[75]) {
    uint64_t *specifics = out + 11, *generals = out + 43, kept[32];
    if (named("specifics_shifted")) shift(specifics);
    if (named("generals_shifted")) shift(generals);
    if (named("lists_exchanged")) {
        memcpy(kept, specifics, sizeof kept);
        memcpy(specifics, generals, sizeof kept);
        memcpy(generals, kept, sizeof kept);
    }
    if (named("equity_in_list")) specifics[7] += out[5];
    if (named("currency_left_out")) generals[7] = 0;
    if (named("entry_kept") && out[0] != 0) generals[31] = 9;
}

/* Makes a floating-rate note end at its fixing, or makes it a qualifying bond that matures with
 * it, coupon 300 (0x012c). */
static void end_at_fixing(uint8_t *note) { memcpy(note + 4, note + 2, 2); }
static void make_bond(uint8_t *note) {
    memcpy(note + 2, note + 4, 2);
    note[1] = 2, note[4] = 0x2c, note[5] = 0x01;
}

/* Charges an accepted book by one of the two maturities of its floating-rate notes. */
static void misread(const uint8_t *book, size_t len, const uint8_t *table, size_t table_len,
                    uint64_t out[75]) {
    static uint8_t copy[8 + 4000 * 16];
    int at_fixing = named("specific_at_fixing");
    if (out[0] != 0 || !(at_fixing || named("ladder_at_final"))) return;
    memcpy(copy, book, len);
    uint8_t *end = copy + 8 + 16 * (book[0] + 256 * book[1]);
    for (uint8_t *row = copy + 8; row < end; row += 16)
        if (row[1] == 4) (at_fixing ? end_at_fixing : make_bond)(row);
    proved_charge(copy, len, table, table_len, out);
}

/* Whether a result refuses its table. */
static int table_refused(const uint64_t *out) { return out[0] == 18 || out[0] == 19; }

/* The table that a wrong library reads in the place of an accepted one: document 01's weights,
 * its per cents, or both. */
static void misload(const uint8_t *table, uint8_t out[36]) {
    proved_table(out);
    if (named("per_cents_alone")) memcpy(out + 30, table + 30, 6);
    if (named("weights_alone")) memcpy(out, table, 30);
}

/* Whether an accepted table is read wrongly, or a refused one is charged under all the same:
 * any of 36 bytes, or one refused where the book is refused too. */
static int misloaded(const uint64_t *out) {
    int heeded = !named("table_ignored") && !named("per_cents_alone") && !named("weights_alone");
    if (out[0] == 0) return !heeded;
    return (named("nineteen_accepted") && out[0] == 19) ||
           (named("table_after_book") && table_refused(out));
}

/* The wrong table again, in a charge and in a ladder. A table that comes after the book is
 * told of where the book has no fault. */
static void mischarge(const uint8_t *book, size_t len, const uint8_t *table, uint64_t out[75]) {
    uint8_t wrong[36];
    uint64_t right[75];
    if (!misloaded(out)) return;
    memcpy(right, out, sizeof right);
    misload(table, wrong);
    proved_charge(book, len, wrong, sizeof wrong, out);
    if (named("table_after_book") && out[0] == 0) memcpy(out, right, sizeof right);
}
static void misweigh(const uint8_t *book, size_t len, const uint8_t *table, size_t group,
                     uint64_t out[13]) {
    uint8_t wrong[36];
    uint64_t right[13];
    if (!misloaded(out)) return;
    memcpy(right, out, sizeof right);
    misload(table, wrong);
    proved_interest_ladder(book, len, wrong, sizeof wrong, group, out);
    if (named("table_after_book") && out[0] == 0) memcpy(out, right, sizeof right);
}

/* Tells of a refused table before the group. */
static void misorder(const uint8_t *table, size_t table_len, uint64_t out[13]) {
    uint64_t of_table[13];
    if (!named("table_before_group") || out[0] != 10) return;
    proved_interest_ladder(table, 0, table, table_len, 0, of_table);
    if (table_refused(of_table)) memcpy(out, of_table, sizeof of_table);
}

/* Gives a broken floating-rate note the number of bad days. */
static void mistell(uint64_t *out) {
    if (named("six_for_fifteen") && out[0] == 15) out[0] = 6;
}

/* Makes a currency's ladder wrong: half of the residual told as matched between zones 1 and 3,
 * which leaves the charge as it is; gross of the larger side alone; the match of zones 1 and 2
 * left out; a residual below zero; a charge just out of its bounds. */
static void misladder(uint64_t out[13]) {
    uint64_t gross = out[3], residual = out[11];
    if (out[0] != 0) return;
    if (named("match_made_up")) {
        out[10] += residual / 2;
        out[11] -= residual / 2;
    }
    if (named("one_side_in_gross")) out[3] = (gross + residual) / 2;
    if (named("match_dropped")) {
        out[12] -= 40 * out[8];
        out[8] = 0;
    }
    if (named("residual_with_sign")) out[11] = 0 - residual;
    if (named("charge_too_low")) out[12] = 100 * residual - 1;
    if (named("charge_too_high")) out[12] = 50 * (gross + residual) + 1;
}

/* Makes a commodity's ladder wrong: what is left carried once more and charged for it; the
 * matches left out with their charge; a match charged on one side. */
static void miscarry(uint64_t out[7]) {
    uint64_t matches = out[3], residual = out[5];
    if (out[0] != 0) return;
    if (named("carried_once_more")) {
        out[4] += residual;
        out[6] += 6000 * residual;
    }
    if (named("matches_dropped")) {
        out[3] = 0;
        out[6] -= 30000 * matches;
    }
    if (named("one_side_charged")) out[6] -= 15000 * matches;
}

void market_risk_check(const uint8_t *book, size_t len, uint64_t out[3]) {
    if (!taken_out("check", out, 3)) proved_check(book, len, out);
    mistell(out);
}

void market_risk_part(const uint8_t *book, size_t len, size_t class, uint64_t out[5]) {
    if (!taken_out("part", out, 5)) proved_part(book, len, class, out);
}

void market_risk_table(uint8_t out[36]) {
    if (named("table") || named("all")) memset(out, 0, 36);
    else proved_table(out);
    if (named("table_changed")) out[35] = 99;
}

void market_risk_charge(const uint8_t *book, size_t len, const uint8_t *table,
                        size_t table_len, uint64_t out[75]) {
    if (!taken_out("charge", out, 75)) proved_charge(book, len, table, table_len, out);
    misread(book, len, table, table_len, out);
    mischarge(book, len, table, out);
    miscount(out);
    mislist(out);
}

void market_risk_interest_ladder(const uint8_t *book, size_t len, const uint8_t *table,
                                 size_t table_len, size_t group, uint64_t out[13]) {
    if (!taken_out("interest_ladder", out, 13))
        proved_interest_ladder(book, len, table, table_len, group, out);
    misweigh(book, len, table, group, out);
    misorder(table, table_len, out);
    misladder(out);
}

void market_risk_commodity_ladder(const uint8_t *book, size_t len, size_t group,
                                  uint64_t out[7]) {
    if (!taken_out("commodity_ladder", out, 7)) proved_commodity_ladder(book, len, group, out);
    miscarry(out);
}

void market_risk_join(const uint8_t *a, size_t a_len, const uint8_t *b, size_t b_len,
                      uint8_t *out, size_t out_len, uint64_t result[4]) {
    if (!taken_out("join", result, 4)) proved_join(a, a_len, b, b_len, out, out_len, result);
}
