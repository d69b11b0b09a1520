/* Offsetting: taken out, or with a wrong reading of the limits, of the leg that goes with another, of
 * what stays, of 12, or of the bytes that it leaves alone. STAND_IN names it. */
#include "faults.h"

void proved_offset(const uint8_t *book, size_t len, uint8_t *out, size_t out_len, uint64_t *result);

enum { ROW = 16, MOST = 4000, MOST_BYTES = 8 + MOST * ROW };

/* How two legs are read, right but for one thing. */
static struct {
    int farther, days[3], coupons, amounts, sides, kind, currencies, issues, last, again;
} read;

static void choose(void) {
    read.farther = named("farther_leg");
    read.days[0] = named("day_under_30");
    read.days[1] = 7 + named("eighth_day");
    read.days[2] = 30 + named("day_31");
    read.coupons = 15 + named("sixteen_points");
    read.amounts = named("any_amount");
    read.sides = named("same_side");
    read.kind = named("kind_2_too") ? 2 : named("kind_3_too") ? 3 : 1;
    read.currencies = named("across_currencies");
    read.issues = named("one_issue");
    read.last = named("last_leg");
    read.again = named("offered_again");
}

static int two(const uint8_t *at) { return at[0] + 256 * at[1]; }

static int apart(int one, int other) { return one < other ? other - one : one - other; }

/* The days of the leg that the limit goes by, and that limit. */
static int limit(int one, int other) {
    int days = (one < other) != read.farther ? one : other;
    return read.days[days < 30 ? 0 : days <= 360 ? 1 : 2];
}

static int leg(const uint8_t *row) { return row[1] == 1 || row[1] == read.kind; }

static int opposite(const uint8_t *one, const uint8_t *other) {
    const uint8_t *side = one + (read.sides ? 12 : 8), *back = one + (read.sides ? 8 : 12);
    static const uint8_t none[4];
    if (read.amounts) return !memcmp(one + 8, none, 4) != !memcmp(other + 8, none, 4);
    int crossed = !memcmp(one + 8, other + 12, 4) && !memcmp(one + 12, other + 8, 4);
    return crossed || (read.sides && !memcmp(side, other + 12, 4) && !memcmp(back, other + 8, 4));
}

static int fit(const uint8_t *one, const uint8_t *other) {
    return leg(one) && leg(other) && (one[0] == other[0] || read.currencies) &&
           opposite(one, other) && apart(two(one + 4), two(other + 4)) <= read.coupons &&
           apart(two(one + 2), two(other + 2)) <= limit(two(one + 2), two(other + 2)) &&
           (!read.issues || two(one + 6) == two(other + 6));
}

/* Marks the rows that go. */
static void pair_off(const uint8_t *rows, size_t count, uint8_t gone[MOST]) {
    memset(gone, 0, MOST);
    for (size_t at = 0; at < count; at++) {
        size_t found = 0;
        if (gone[at]) continue;
        for (size_t later = at + 1; later < count && (!found || read.last); later++)
            if ((!gone[later] || read.again) && fit(rows + ROW * at, rows + ROW * later))
                found = later;
        if (found) gone[at] = gone[found] = 1;
    }
}

/* The book that is left by the reading, and its length. */
static size_t misread(const uint8_t *book, size_t len, uint8_t *left) {
    static uint8_t gone[MOST];
    size_t count = (size_t)two(book), stay = 0, at = 8;
    choose();
    pair_off(book + 8, count, gone);
    for (int turn = 0; turn < 2; turn++) /* rows that are no legs may come behind the legs */
        for (size_t row = 0; row < count; row++) {
            const uint8_t *from = book + 8 + ROW * row;
            int late = named("others_moved") && from[1] != 1;
            if (gone[row] || late != turn) continue;
            memcpy(left + at, from, ROW);
            at += ROW, stay++;
        }
    memcpy(left + at, book + 8 + ROW * count, len - 8 - ROW * count);
    memcpy(left, book, 8);
    left[0] = stay & 0xff, left[1] = (uint8_t)(stay >> 8);
    return len - ROW * (count - stay);
}

/* Whether there is room for so many bytes, by the reading. */
static int room(size_t out_len, size_t length) {
    if (named("twelve_late")) return out_len + 1 >= length;
    if (named("twelve_early")) return out_len >= length + 1;
    return out_len >= length;
}

void market_risk_offset(const uint8_t *book, size_t len, uint8_t *out, size_t out_len,
                        uint64_t result[4]) {
    static uint8_t left[MOST_BYTES];
    if (taken_out("offset", result, 4)) return;
    proved_offset(book, len, out, out_len, result);
    if (result[0] != 0 && result[0] != 12) return;
    size_t length = misread(book, len, left), fits = length < out_len ? length : out_len;
    result[0] = room(out_len, length) ? 0 : 12;
    result[3] = result[0] == 0 || named("length_told") ? length : 0;
    if (result[0] == 0) memcpy(out, left, fits);
    if (result[0] == 0 && named("rest_cleared")) memset(out + fits, 0, out_len - fits);
    if (result[0] == 12 && named("twelve_writes") && out_len > 0) out[0] ^= 1;
}
