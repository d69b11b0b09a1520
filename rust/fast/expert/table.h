/* A loaded table. */

#define TABLE 36
#define MOST_WEIGHT 2000
#define MOST_PER_CENT 100

/* The weights of the bands, in basis points; the per cents of matches. */
struct table {
    int64_t weights[16];
    uint64_t vertical, zones[3], adjacent, zones_1_3;
};

/* Whether a weight falls or is too high. Bands 0 to 7 are set beside the bands after them, and so
 * are 6 to 13; where none falls, none is above the last. */
static inline int bad_weights(const uint8_t *bytes) {
    __m128i falls = _mm_setzero_si128();
    for (int at = 0; at <= 12; at += 12) {
        __m128i weight = _mm_loadu_si128((const __m128i *)(bytes + at));
        __m128i next = _mm_loadu_si128((const __m128i *)(bytes + at + 2));
        falls = _mm_or_si128(falls, _mm_subs_epu16(weight, next));
    }
    __m128i rising = _mm_cmpeq_epi16(falls, _mm_setzero_si128());
    uint16_t last;
    memcpy(&last, bytes + 28, 2);
    return (_mm_movemask_epi8(rising) != 0xffff) | (last > MOST_WEIGHT);
}

/* Whether the per cents are not in their order. */
static inline int bad_per_cents(const struct table *table) {
    const uint64_t *zones = table->zones, vertical = table->vertical, adjacent = table->adjacent;
    int zone_1 = (vertical > zones[0]) | (zones[0] > adjacent);
    int zone_2 = (vertical > zones[1]) | (zones[1] > adjacent);
    int zone_3 = (vertical > zones[2]) | (zones[2] > adjacent);
    int far = (adjacent > table->zones_1_3) | (table->zones_1_3 > MOST_PER_CENT);
    return zone_1 | zone_2 | zone_3 | far;
}

/* Reads a table and gives 0, or the number of its refusal. */
static inline uint64_t load(struct table *table, const uint8_t *bytes, size_t length) {
    if (length != TABLE) return 18;
    for (int band = 0; band < 15; band++) {
        uint16_t weight;
        memcpy(&weight, bytes + 2 * band, 2);
        table->weights[band] = weight;
    }
    table->vertical = bytes[30], table->adjacent = bytes[34], table->zones_1_3 = bytes[35];
    for (int zone = 0; zone < 3; zone++) table->zones[zone] = bytes[31 + zone];
    return bad_weights(bytes) | bad_per_cents(table) ? 19 : 0;
}
