/* Options, calculated here but for the charge of the book: as they should be, or with a wrong reading. */
#include "faults.h"

void proved_table(uint8_t *out);
void proved_charge(const uint8_t *book, size_t len, const uint8_t *table, size_t table_len,
                   uint64_t *out);
void proved_options(const uint8_t *table, size_t len, uint8_t *out, size_t out_len, uint64_t *result);

enum { OPTION = 18, MOST = 1001, MOST_BYTES = 8 + 16 * MOST };

/* What options give: a book, and gamma and vega of the three classes. */
struct answer {
    uint8_t book[MOST_BYTES];
    size_t length;
    uint64_t greeks[2][3];
};

static uint64_t two(const uint8_t *at) { return at[0] + 256u * at[1]; }

/* The fields of an option. */
static uint64_t amount(const uint8_t *option) { return two(option + 4) + 65536 * two(option + 6); }
static uint64_t delta(const uint8_t *option) { return two(option + 8); }

/* Writes a row, by the reading: rounded otherwise, on the other side, or without days or kind. */
static void write_row(uint8_t *row, const uint8_t *option) {
    uint64_t part = amount(option) * delta(option), up = 9999;
    int right = option[2], is_long = right == 0 || right == 3;
    if (named("deltas_down")) up = 0;
    if (named("deltas_to_nearest")) up = 5000;
    if (named("sold_puts_short")) is_long = right == 0;
    if (named("calls_long")) is_long = right % 2 == 0;
    memset(row, 0, 16);
    row[0] = option[1], row[1] = option[3];
    memcpy(row + 2, option + 16, 2);
    if (named("days_dropped")) memset(row + 2, 0, 2);
    if (named("shares_alike") && option[0] == 2) row[1] = 1;
    for (int byte = 0; byte < 4; byte++)
        row[(is_long ? 8 : 12) + byte] = (part + up) / 10000 >> 8 * byte;
}

/* The class of a book, 0 to 3, that an option's row stands in. */
static int class_of(const uint8_t *option) {
    return named("fx_as_commodities") && option[0] == 3 ? 3 : option[0] - 1;
}

/* The book of the deltas. */
static void write_book(const uint8_t *options, size_t count, struct answer *answer) {
    uint8_t *row = answer->book + 8;
    int zero = named("row_of_delta_0");
    memset(answer->book, 0, 8);
    if (named("last_option_missing") && count > 0) count--;
    for (int class = 1; class < 4; class++)
        for (size_t i = 0; i < count; i++) {
            size_t at = named("rows_reversed") ? count - 1 - i : i;
            const uint8_t *option = options + OPTION * at;
            if (class_of(option) != class || (delta(option) == 0 && !zero)) continue;
            write_row(row, option);
            row += 16;
            if (++answer->book[2 * class] == 0) answer->book[2 * class + 1]++;
        }
    answer->length = row - answer->book;
}

/* Adds gamma and vega of an option to those of its underlying, by the reading: with another sign or
 * move, each impact rounded, or one underlying for a class. Gamma is added twice. */
static void add(const uint8_t *option, int64_t sums[2][3][32]) {
    int bought = named("signs_by_call") ? option[2] % 2 == 0 : option[2] < 2;
    int64_t sign = bought ? 1 : -1, class = option[0] - 2, group = option[1] % 32;
    int64_t moved = class == 2 && !named("commodities_move_8") ? 15 : 8;
    int64_t twice = amount(option) * two(option + 10) * moved * moved;
    if (named("halves_each")) twice += twice % 2;
    if (named("groups_together")) group = 0;
    if (named("delta_0_skipped") && delta(option) == 0) return;
    sums[0][class][group] += sign * twice;
    sums[1][class][group] += sign * (int64_t)(two(option + 12) * two(option + 14));
}

/* What an underlying costs, by the reading. */
static uint64_t cost_of_gamma(int64_t twice) {
    if (twice > 0 && !named("positive_gamma")) return 0;
    return (llabs(twice) + !named("halves_down")) / 2;
}
static uint64_t cost_of_vega(int64_t sum) {
    if (sum > 0 && named("vega_as_gamma")) return 0;
    return (named("whole_shift") ? 10000 : 2500) * llabs(sum);
}

/* Exchanges two figures. */
static void exchange(uint64_t *one, uint64_t *other) {
    uint64_t kept = *one;
    *one = *other, *other = kept;
}

/* Whether all options are on currency 5. */
static int currency_5_alone(const uint8_t *options, size_t count) {
    for (size_t i = 0; i < count; i++)
        if (options[OPTION * i] != 3 || options[OPTION * i + 1] != 5) return 0;
    return count > 0;
}

/* Gamma and vega of the classes. */
static void price(const uint8_t *options, size_t count, struct answer *answer) {
    static int64_t sums[2][3][32];
    memset(sums, 0, sizeof sums);
    memset(answer->greeks, 0, sizeof answer->greeks);
    for (size_t i = 0; i < count; i++) add(options + OPTION * i, sums);
    for (int class = 0; class < 3; class++)
        for (int group = 0; group < 32; group++) {
            answer->greeks[0][class] += cost_of_gamma(sums[0][class][group]);
            answer->greeks[1][class] += cost_of_vega(sums[1][class][group]);
        }
    if (named("gammas_exchanged")) exchange(&answer->greeks[0][0], &answer->greeks[0][1]);
    if (named("gamma_for_vega"))
        for (int class = 0; class < 3; class++)
            exchange(&answer->greeks[0][class], &answer->greeks[1][class]);
    if (named("more_alone") && currency_5_alone(options, count)) answer->greeks[0][1]++;
}

/* Writes the charges of the book, by the reading: none, or with gamma and vega in the total. */
static void charge(const struct answer *answer, uint64_t result[17]) {
    uint8_t table[36];
    uint64_t report[75];
    proved_table(table);
    proved_charge(answer->book, answer->length, table, sizeof table, report);
    if (!named("deltas_uncharged")) memcpy(result + 10, report + 3, 7 * sizeof *result);
    for (int class = 0; named("greeks_in_total") && class < 3; class++)
        result[16] += answer->greeks[0][class] + answer->greeks[1][class];
}

/* Whether an option is refused. */
static int bad(const uint8_t *option) {
    uint8_t alone[2 + OPTION] = {1, 0}, room[24];
    uint64_t result[17];
    memcpy(alone + 2, option, OPTION);
    if (named("group_32_taken") && option[1] == 32) alone[2 + 1] = 31;
    if (named("days_of_shares_taken") && option[0] == 2) memset(alone + 2 + 16, 0, 2);
    proved_options(alone, sizeof alone, room, sizeof room, result);
    return result[0] != 0 || (named("delta_10000_refused") && delta(option) == 10000);
}

/* The number and the row of the refusal, by the reading: a count or length that is taken or not, another
 * bad option than the first, another number or row, or 17 before 16. */
static void refuse(const uint8_t *table, size_t len, uint64_t result[17]) {
    size_t most = named("options_999") ? 999 : named("options_1001") ? 1001 : 1000;
    size_t count = len < 2 ? 0 : two(table), there = len < 2 ? 0 : (len - 2) / OPTION;
    int wrong = len < 2 || count > most || (len != 2 + OPTION * count && !named("any_length"));
    if (wrong) result[0] = 16;
    if (wrong && !named("seventeen_first")) return;
    for (size_t i = 0; i < count && i < there; i++)
        if (bad(table + 2 + OPTION * i)) {
            result[0] = named("sixteen_for_seventeen") ? 16 : 17;
            result[1] = named("bad_row_untold") ? 0 : i;
            if (!named("last_bad_told")) return;
        }
}

void market_risk_options(const uint8_t *table, size_t len, uint8_t *out, size_t out_len,
                         uint64_t result[17]) {
    static struct answer answer;
    if (taken_out("options", result, 17)) return;
    memset(result, 0, 17 * sizeof *result);
    refuse(table, len, result);
    if (result[0] != 0) return;
    size_t count = two(table), there = (len - 2) / OPTION;
    if (there < count) count = there;
    write_book(table + 2, count, &answer);
    price(table + 2, count, &answer);
    if (out_len + named("deltas_twelve_late") < answer.length) {
        result[0] = 12;
        if (named("deltas_twelve_writes") && out_len > 0) out[0] ^= 1;
        if (named("deltas_length_kept")) result[3] = answer.length;
        if (named("greeks_kept")) memcpy(result + 4, answer.greeks, sizeof answer.greeks);
        return;
    }
    memcpy(out, answer.book, answer.length < out_len ? answer.length : out_len);
    if (named("deltas_cleared") && out_len > answer.length)
        memset(out + answer.length, 0, out_len - answer.length);
    result[3] = answer.length + (named("deltas_longer") ? 16 : 0);
    memcpy(result + 4, answer.greeks, sizeof answer.greeks);
    charge(&answer, result);
}
