/* Netting: taken out, or with a wrong reading of places, numbers, sums, refusals and their order,
 * of the bytes that it leaves alone, or with a wrong count of comparisons. STAND_IN names it. */
#include "faults.h"

void proved_net(const uint8_t *book, size_t len, uint8_t *out, size_t out_len, uint64_t *result);

enum { ROW = 16, MOST_BYTES = 8 + 4000 * ROW };

/* A number that no sample and hardly any random row has. */
static const uint8_t unused[2] = {0x61, 0xea};

static size_t rows(const uint8_t *book, int class) {
    return book[2 * class] + 256 * (size_t)book[2 * class + 1];
}

static const uint8_t *row(const uint8_t *book, size_t at) { return book + 8 + ROW * at; }

/* The class of a row, 0 to 3. */
static int class_of(const uint8_t *book, size_t at) {
    int class = 0;
    for (size_t end = rows(book, 0); at >= end && class < 3; end += rows(book, class)) class++;
    return class;
}

/* Whether two rows are of one issue. */
static int same(const uint8_t *book, size_t one, size_t other) {
    const uint8_t *number = row(book, one) + 6;
    return (number[0] || number[1]) && !memcmp(number, row(book, other) + 6, 2) &&
           class_of(book, one) == class_of(book, other);
}

static int64_t amount(const uint8_t *bytes) {
    return bytes[0] | (int64_t)bytes[1] << 8 | (int64_t)bytes[2] << 16 | (int64_t)bytes[3] << 24;
}

/* The first row of an issue whose sum is too large, in the end or somewhere on the way; or -1. */
static long over(const uint8_t *book, size_t count, int on_the_way) {
    for (size_t first = 0; first < count; first++) {
        int64_t sum = 0;
        int passed = 0;
        for (size_t at = first; at < count; at++) {
            if (at != first && !same(book, first, at)) continue;
            sum += amount(row(book, at) + 8) - amount(row(book, at) + 12);
            passed |= sum > 1000000000 || sum < -1000000000;
        }
        if (on_the_way ? passed : sum > 1000000000 || sum < -1000000000) return (long)first;
    }
    return -1;
}

/* Turns the rows of each class round, in another buffer. */
static void turn(const uint8_t *book, uint8_t *turned) {
    size_t start = 0;
    memcpy(turned, book, 8);
    for (int class = 0; class < 4; start += rows(book, class), class++)
        for (size_t at = 0; at < rows(book, class); at++)
            memcpy(turned + 8 + ROW * (start + at),
                   row(book, start + rows(book, class) - 1 - at), ROW);
}

/* Gives rows numbered 0 another number, or those of that number back. */
static void renumber(uint8_t *book, size_t len, const uint8_t from[2], const uint8_t to[2]) {
    for (uint8_t *at = book + 8; at + ROW <= book + len; at += ROW)
        if (!memcmp(at + 6, from, 2)) memcpy(at + 6, to, 2);
}

/* A wrong netted book: the net in the place of the last row, rows numbered 0 as one issue, the
 * first row one unit too large, the last row left out, bytes past the book cleared. */
static void misnet(const uint8_t *book, size_t len, uint8_t *out, size_t out_len, uint64_t result[5]) {
    static uint8_t copy[MOST_BYTES], netted[MOST_BYTES];
    static const uint8_t none[2];
    uint64_t turned[5];
    if (named("last_place")) {
        turn(book, copy);
        proved_net(copy, len, netted, sizeof netted, turned); /* of the same length */
        turn(netted, out);
    }
    if (named("zero_an_issue")) {
        memcpy(copy, book, len);
        renumber(copy, len, none, unused);
        proved_net(copy, len, out, out_len, result);
        if (result[0] == 0) renumber(out, result[3], unused, none);
    }
    if (named("unit_too_much") && result[3] > 8) out[out[16] != 0 ? 16 : 20] += 1;
    if (named("last_left_out") && result[3] > 8 && out[0] > 0) {
        out[0] -= 1;
        result[3] -= ROW;
    }
    if (named("past_cleared")) memset(out + result[3], 0, out_len - result[3]);
}

/* A wrong refusal: 14 by the sum on the way, or before 13; 13 at the first row; 12 before both; a
 * length; a byte that is written. */
static void misrefuse(const uint8_t *book, size_t len, uint8_t *out, size_t out_len, uint64_t result[5]) {
    size_t count = result[0] == 0 || result[0] >= 12 ? (len - 8) / ROW : 0;
    long large = -1;
    if (named("running_sum") && (result[0] == 0 || result[0] == 12)) large = over(book, count, 1);
    if (named("fourteen_first") && result[0] == 13) large = over(book, count, 0);
    if (named("thirteen_at_first") && result[0] == 13)
        for (size_t at = result[1]; at-- > 0;)
            if (same(book, at, result[1])) result[1] = at;
    if (large >= 0) result[0] = 14, result[1] = (uint64_t)large, result[3] = result[4] = 0;
    if (named("twelve_first") && (result[0] == 13 || result[0] == 14) && out_len < 8)
        result[0] = 12, result[1] = 0;
    if (named("length_kept") && result[0] == 12) result[3] = len;
    if (named("refused_writes") && result[0] != 0 && out_len > 0) out[0] ^= 1;
}

/* The rows of a book from one on to another that have a number. */
static uint64_t numbered(const uint8_t *book, size_t from, size_t to) {
    uint64_t count = 0;
    for (size_t at = from; at < to; at++) count += row(book, at)[6] || row(book, at)[7];
    return count;
}

/* A wrong count: none, one too many, the equal ones left out, every two rows of a class, the
 * classes as one, or kept without room. */
static void miscompare(const uint8_t *book, size_t len, uint64_t result[5]) {
    static uint8_t copy[MOST_BYTES], netted[MOST_BYTES];
    uint64_t all[5];
    size_t count = (len - 8) / ROW;
    if (named("none_compared")) result[4] = 0;
    if (named("one_more_compared")) result[4] += 1;
    if (named("equal_not_counted")) /* a row that is not the first of its issue meets an equal one */
        for (size_t at = 0; at < count; at++)
            for (size_t before = 0; before < at; before++)
                if (same(book, before, at)) { result[4] -= 1; break; }
    if (named("every_two_compared")) {
        result[4] = 0;
        for (size_t at = 0, start = 0; at < count; at++) {
            if (at > 0 && class_of(book, at) != class_of(book, at - 1)) start = at;
            if (numbered(book, at, at + 1)) result[4] += numbered(book, start, at);
        }
    }
    if (named("classes_compared")) { /* all rows as foreign exchange of one currency */
        memset(copy, 0, 8);
        copy[4] = count & 0xff, copy[5] = (uint8_t)(count >> 8);
        memcpy(copy + 8, book + 8, len - 8);
        for (uint8_t *at = copy + 8; at < copy + len; at += ROW) memset(at, 0, 6);
        proved_net(copy, len, netted, sizeof netted, all);
        if (all[0] == 0) result[4] = all[4];
    }
}

/* What the call would count, of a book that is refused with 12. */
static void keep_count(const uint8_t *book, size_t len, uint64_t result[5]) {
    static uint8_t netted[MOST_BYTES];
    uint64_t whole[5];
    proved_net(book, len, netted, sizeof netted, whole);
    if (named("count_kept")) result[4] = whole[4];
}

void market_risk_net(const uint8_t *book, size_t len, uint8_t *out, size_t out_len,
                     uint64_t result[5]) {
    if (taken_out("net", result, 5)) return;
    proved_net(book, len, out, out_len, result);
    if (result[0] == 0) miscompare(book, len, result), misnet(book, len, out, out_len, result);
    if (result[0] == 12) keep_count(book, len, result);
    misrefuse(book, len, out, out_len, result);
}
