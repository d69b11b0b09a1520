/* Rows, and whether their class accepts them. */

#include <emmintrin.h>
#include <stdint.h>
#include <string.h>

#define ROW 16
#define MOST_AMOUNT 1000000000u

/* A floating-rate note: its kind, its last days to fixing and to final maturity. */
#define FLOATING 4
#define LAST_FIXING 360
#define LAST_MATURITY 36000

/* What a class allows: least and greatest kind, last day and greatest coupon. The class whose
 * kinds go up to 4 has floating-rate notes. */
struct limits {
    uint16_t kinds_least, kinds_most, days, coupon;
};

static const struct limits LIMITS[4] = {
    {1, FLOATING, 36000, 10000}, {1, 3, 0, 0}, {0, 0, 0, 0}, {0, 0, 36000, 0}};

static inline uint64_t word(const uint8_t *at) {
    uint64_t word;
    memcpy(&word, at, 8);
    return word;
}

static inline uint64_t least(uint64_t one, uint64_t other) { return one < other ? one : other; }
static inline uint64_t absolute(int64_t net) { return net < 0 ? -net : net; }
static inline int64_t net_of(uint64_t amounts) {
    return (int64_t)(uint32_t)amounts - (int64_t)(amounts >> 32);
}
static inline uint64_t amount_of(uint64_t amounts) { return (uint32_t)amounts + (amounts >> 32); }

/* Whether a row's days or coupon are out of their range: no branch. */
static inline int out_of_range(uint64_t head, const struct limits *class) {
    uint16_t days = head >> 16, coupon = head >> 32;
    int floating = class->kinds_most == FLOATING && (uint8_t)(head >> 8) == FLOATING;
    int fixed = (days > class->days) | (coupon > class->coupon);
    int note = (days > LAST_FIXING) | (coupon > LAST_MATURITY) | (coupon < days);
    return (-floating & note) | ((floating - 1) & fixed);
}

/* The number of a bad row's first fault. */
static __attribute__((noinline, cold)) uint64_t fault(const uint8_t *row,
                                                      const struct limits *class) {
    uint64_t head = word(row), amounts = word(row + 8);
    uint8_t kind = head >> 8;
    if ((uint8_t)head > 31) return 4;
    if (kind < class->kinds_least || kind > class->kinds_most) return 5;
    if (out_of_range(head, class))
        return kind == FLOATING ? 15 : (uint16_t)(head >> 16) > class->days ? 6 : 7;
    return ((uint32_t)amounts == 0) == (amounts >> 32 == 0) ? 8 : 9;
}

/* Whether a row has a fault. */
static inline int bad(const uint8_t *row, const struct limits *class) {
    uint64_t head = word(row), amounts = word(row + 8);
    uint32_t long_side = amounts, short_side = amounts >> 32;
    uint8_t kind = head >> 8;
    return ((uint8_t)head > 31) | (kind < class->kinds_least) | (kind > class->kinds_most)
        | out_of_range(head, class) | ((long_side != 0) & (short_side != 0))
        | ((long_side | short_side) - 1 >= MOST_AMOUNT);
}

/* The numbers of 16 bits that the heads of two rows are, each with its own in both rows. */
#define BOTH(issue, coupon, days, kind_and_group) \
    _mm_set_epi16(issue, coupon, days, kind_and_group, issue, coupon, days, kind_and_group)

/* One of these numbers in the place of another, in both rows. */
#define MOVED(heads, places) _mm_shufflehi_epi16(_mm_shufflelo_epi16(heads, places), places)

/* Whether one of two rows has days or a coupon out of their range: a vector that is then not 0. */
static inline __m128i bad_terms(__m128i heads, const struct limits *class) {
    __m128i most = BOTH(-1, class->coupon, class->days, -1);
    if (class->kinds_most != FLOATING) return _mm_subs_epu16(heads, most);
    /* A note has other limits, and its days, in the place of the coupon, are not past it. */
    __m128i note = BOTH(-1, LAST_MATURITY, LAST_FIXING, -1);
    __m128i kind = _mm_cmpgt_epi16(heads, _mm_set1_epi16((FLOATING << 8) - 1));
    __m128i floating = MOVED(kind, 0x00);
    __m128i past = _mm_and_si128(floating, _mm_subs_epu16(MOVED(heads, 0xd4), heads));
    most = _mm_xor_si128(most, _mm_and_si128(floating, _mm_xor_si128(most, note)));
    return _mm_or_si128(past, _mm_subs_epu16(heads, most));
}

/* Whether one of four rows has a fault in its first six bytes: a vector that is then not 0. */
static inline __m128i bad_heads(const __m128i *row, const struct limits *class) {
    __m128i one = _mm_unpacklo_epi64(row[0], row[1]), two = _mm_unpacklo_epi64(row[2], row[3]);
    __m128i least = BOTH(0, 0, 0, class->kinds_least << 8);
    __m128i most = BOTH(-1, -1, -1, class->kinds_most << 8 | 31);
    __m128i high = _mm_subs_epu8(_mm_max_epu8(one, two), most);
    __m128i low = _mm_subs_epu8(least, _mm_min_epu8(one, two));
    __m128i terms = _mm_or_si128(bad_terms(one, class), bad_terms(two, class));
    return _mm_or_si128(_mm_or_si128(high, low), terms);
}

/* Whether one of four rows has a fault in its amounts: the sign of its number is then set. */
static inline __m128i bad_amounts(const __m128i *row) {
    __m128 one = _mm_castsi128_ps(_mm_unpackhi_epi64(row[0], row[1]));
    __m128 two = _mm_castsi128_ps(_mm_unpackhi_epi64(row[2], row[3]));
    __m128i longs = _mm_castps_si128(_mm_shuffle_ps(one, two, 0x88));
    __m128i shorts = _mm_castps_si128(_mm_shuffle_ps(one, two, 0xdd));
    __m128i none = _mm_setzero_si128(), amount = _mm_or_si128(longs, shorts);
    __m128i sides = _mm_cmpeq_epi32(_mm_cmpeq_epi32(longs, none), _mm_cmpeq_epi32(shorts, none));
    __m128i room = _mm_sub_epi32(_mm_set1_epi32(MOST_AMOUNT), amount);
    return _mm_or_si128(sides, _mm_or_si128(amount, room));
}

/* Whether one of four rows has a fault. */
static inline int bad_four(const uint8_t *rows, const struct limits *class) {
    __m128i row[4];
    for (int at = 0; at < 4; at++) row[at] = _mm_loadu_si128((const __m128i *)rows + at);
    __m128i clean = _mm_cmpeq_epi32(bad_heads(row, class), _mm_setzero_si128());
    __m128i amounts = bad_amounts(row);
    return _mm_movemask_epi8(clean) != 0xffff || _mm_movemask_ps(_mm_castsi128_ps(amounts));
}
