/* The sums of the rows and the charges of the sums, in mils.
 *
 * Nets are enough. A match takes as much from the longs as from the shorts, so all that is
 * matched in a band, a zone or a commodity is half of what the gross has above the net. */

/* A currency: two sums over its rows side by side, of amounts times the weights of their bands
 * and of amounts times their specific weights; and nets by band. */
struct currency {
    __m128i sums;
    int64_t bands[16];
};

/* Nets by group and band. */
struct nets {
    struct currency interest[32];
    int64_t commodity[32][8], equity[32], exchange[32];
};

/* Sums over all groups, in registers, and the groups that are used, a bit each. */
struct totals {
    uint64_t commodities, equity_specific;
    uint32_t currencies_used, commodities_used;
};

static inline void take_interest(struct nets *nets, struct totals *totals, const uint8_t *row,
                                 const struct table *table) {
    uint64_t head = word(row), amounts = word(row + 8);
    uint32_t group = head & 31, kind = head >> 8 & 7, days = (uint16_t)(head >> 16);
    uint32_t coupon = (uint16_t)(head >> 32), floating = -(kind >> 2);
    uint32_t maturity = days ^ (floating & (days ^ coupon));
    uint32_t band = INTEREST[coupon < 300][CELL(days)];
    uint32_t specific = SPECIFIC[kind][(maturity > 180) + (maturity > 720)];
    int64_t weight = table->weights[band];
    __m128i weights = _mm_set_epi64x(specific, weight);
    __m128i weighted = _mm_mul_epu32(weights, _mm_set1_epi64x(amount_of(amounts)));
    struct currency *currency = &nets->interest[group];
    currency->sums = _mm_add_epi64(currency->sums, weighted);
    currency->bands[band] += weight * net_of(amounts);
    totals->currencies_used |= 1u << group;
}

static inline void take_equity(struct nets *nets, struct totals *totals, const uint8_t *row) {
    uint64_t head = word(row), amounts = word(row + 8);
    nets->equity[head & 31] += net_of(amounts);
    totals->equity_specific += amount_of(amounts) * EQUITY[head >> 8 & 3];
}

static inline void take_exchange(struct nets *nets, struct totals *totals, const uint8_t *row) {
    (void)totals;
    nets->exchange[word(row) & 31] += net_of(word(row + 8));
}

static inline void take_commodity(struct nets *nets, struct totals *totals, const uint8_t *row) {
    uint64_t head = word(row), amounts = word(row + 8);
    uint32_t group = head & 31, band = COMMODITY[CELL((uint16_t)(head >> 16))];
    nets->commodity[group][band] += net_of(amounts);
    totals->commodities += amount_of(amounts);
    totals->commodities_used |= 1u << group;
}

/* Takes the match off both of two opposite nets and gives it. */
static inline uint64_t offset(int64_t *one, int64_t *other) {
    int64_t match = (*one ^ *other) < 0 ? least(absolute(*one), absolute(*other)) : 0;
    *one -= *one < 0 ? -match : match;
    *other -= *other < 0 ? -match : match;
    return match;
}

/* Adds the bands' nets up, without their signs and with them. */
static inline void add(const int64_t *bands, int count, uint64_t *gross, int64_t *net) {
    *gross = 0, *net = 0;
    for (int band = 0; band < count; band++) {
        *gross += absolute(bands[band]);
        *net += bands[band];
    }
}

/* One currency's specific charge. */
static inline uint64_t specific(const struct currency *of) {
    return 100 * (uint64_t)_mm_cvtsi128_si64(_mm_unpackhi_epi64(of->sums, of->sums));
}

/* One currency's general charge. Twice a match in bands or a zone is what gross has above net. */
static inline uint64_t general(const struct currency *of, const struct table *table) {
    uint64_t weighted = _mm_cvtsi128_si64(of->sums), gross[3];
    int64_t net[3];
    add(of->bands, 4, &gross[0], &net[0]);
    add(of->bands + 4, 3, &gross[1], &net[1]);
    add(of->bands + 7, 8, &gross[2], &net[2]);
    uint64_t twice = table->vertical * (weighted - gross[0] - gross[1] - gross[2]);
    for (int zone = 0; zone < 3; zone++)
        twice += table->zones[zone] * (gross[zone] - absolute(net[zone]));
    uint64_t near = offset(&net[0], &net[1]);
    near += offset(&net[1], &net[2]);
    uint64_t far = offset(&net[0], &net[2]), left = absolute(net[0] + net[1] + net[2]);
    return twice / 2 + table->adjacent * near + table->zones_1_3 * far + 100 * left;
}

/* One commodity's charge, without 15,000 for its gross. */
static inline uint64_t commodity(const int64_t *bands) {
    uint64_t carried = 0;
    int64_t net = 0;
    for (int band = 0; band < 7; band++) {
        carried += absolute(net);
        net += bands[band];
    }
    return 6000 * carried + 135000 * absolute(net);
}

static inline void charges(const struct nets *nets, const struct totals *totals,
                           const struct table *table, uint64_t *out) {
    uint64_t commodities = 15000 * totals->commodities, equity = 0, gross = 0;
    int64_t net = 0;
    for (uint32_t used = totals->currencies_used; used; used &= used - 1) {
        int group = __builtin_ctz(used);
        out[3] += out[11 + group] = specific(&nets->interest[group]);
        out[4] += out[43 + group] = general(&nets->interest[group], table);
    }
    for (uint32_t used = totals->commodities_used; used; used &= used - 1)
        commodities += commodity(nets->commodity[__builtin_ctz(used)]);
    for (int group = 0; group < 32; group++) equity += absolute(nets->equity[group]);
    for (int group = 1; group < 32; group++) {
        gross += absolute(nets->exchange[group]);
        net += nets->exchange[group];
    }
    out[5] = 100 * totals->equity_specific, out[6] = 80000 * equity;
    out[7] = 80000 * ((gross + absolute(net)) / 2 + absolute(nets->exchange[0]));
    out[8] = commodities;
    for (int figure = 3; figure < 9; figure++) out[9] += out[figure];
}
