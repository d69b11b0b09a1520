/* Charges some small books through the C interface and prints their reports, with the
 * interest charges of each currency that has any: under document 01's table, and one of them
 * under a table of its own. Then the charges of a bank with only foreign exchange and
 * commodities, those of one bond, long and short, before it is netted and after, those of
 * three swap legs, before they offset each other and after, in two orders, and those of legs
 * of one issue, netted and offset in one call. Last the shortest files that show why books are
 * refused, the dearest books of some rows of at most an amount, options: the rows of their deltas
 * and what these cost, gamma and vega, and the least trades that bring a currency within a limit.
 *
 *     cc -Wall -Wextra -Werror -Iinclude examples/charge.c target/staticlib/libmarket_risk.a -o charge
 */
#include "market_risk.h"

#include <inttypes.h>
#include <stdio.h>
#include <string.h>

/* Document 01's equity book: market 3, ordinary long 100, index short 40. */
static const uint8_t equity[8 + 2 * 16] = {
    0, 0, 2, 0, 0, 0, 0, 0, /* counts: no interest rows, two equity rows */
    3, 1, 0, 0, 0, 0, 0, 0, 100, 0, 0, 0, 0,  0, 0, 0,
    3, 3, 0, 0, 0, 0, 0, 0, 0,   0, 0, 0, 40, 0, 0, 0,
};

/* Document 01's E3: currency 7, government, coupon 800 (0x0320);
 * long 75 at 270 days (0x010e), short 30 at 900 (0x0384), long 10 at 6000 (0x1770). */
static const uint8_t zones[8 + 3 * 16] = {
    3, 0, 0, 0, 0, 0, 0, 0,
    7, 1, 0x0e, 0x01, 0x20, 0x03, 0, 0, 75, 0, 0, 0, 0,  0, 0, 0,
    7, 1, 0x84, 0x03, 0x20, 0x03, 0, 0, 0,  0, 0, 0, 30, 0, 0, 0,
    7, 1, 0x70, 0x17, 0x20, 0x03, 0, 0, 10, 0, 0, 0, 0,  0, 0, 0,
};

/* One row of each class, so that no two of the eight figures are equal: other paper, long 1 at 270 days, coupon 300 (0x012c);
 * diversified shares, long 3; gold, short 2; a commodity, long 1 at 36,000 days (0x8ca0). */
static const uint8_t classes[8 + 4 * 16] = {
    1, 0, 1, 0, 1, 0, 1, 0,
    2, 3, 0x0e, 0x01, 0x2c, 0x01, 0, 0, 1, 0, 0, 0, 0, 0, 0, 0,
    1, 2, 0,    0,    0,    0,    0, 0, 3, 0, 0, 0, 0, 0, 0, 0,
    0, 0, 0,    0,    0,    0,    0, 0, 0, 0, 0, 0, 2, 0, 0, 0,
    0, 0, 0xa0, 0x8c, 0,    0,    0, 0, 1, 0, 0, 0, 0, 0, 0, 0,
};

/* Two currencies, the first and the last. Currency 0: other paper, short 5 at 30 days, where
 * its weight is 0. Currency 31, both at 60 days (0x3c): qualifying, long 10; other, short 4. */
static const uint8_t currencies[8 + 3 * 16] = {
    3, 0, 0, 0, 0, 0, 0, 0,
    0,  3, 0x1e, 0, 0x20, 0x03, 0, 0, 0,  0, 0, 0, 5, 0, 0, 0,
    31, 2, 0x3c, 0, 0x20, 0x03, 0, 0, 10, 0, 0, 0, 0, 0, 0, 0,
    31, 3, 0x3c, 0, 0x20, 0x03, 0, 0, 0,  0, 0, 0, 4, 0, 0, 0,
};

/* Currency 7, a floating-rate note (kind 4), long 1: 90 days to its next fixing, and 2,880 (0x0b40) to final maturity in the
 * place of the coupon. */
static const uint8_t floating[8 + 16] = {
    1, 0, 0, 0, 0, 0, 0, 0,
    7, 4, 90, 0, 0x40, 0x0b, 0, 0, 1, 0, 0, 0, 0, 0, 0, 0,
};

/* A small bank's book: gold, short 2; commodity 3, long 10 at 30 days (0x1e) and short 4 at 720 (0x02d0), which are net 6 and
 * gross 14 whatever the days: 15% and 3% of these are 900,000 + 420,000 mils. */
static const uint8_t small[8 + 3 * 16] = {
    0, 0, 0, 0, 1, 0, 2, 0,
    0, 0, 0,    0,    0, 0, 0, 0, 0,  0, 0, 0, 2, 0, 0, 0,
    3, 0, 0x1e, 0,    0, 0, 0, 0, 10, 0, 0, 0, 0, 0, 0, 0,
    3, 0, 0xd0, 0x02, 0, 0, 0, 0, 0,  0, 0, 0, 4, 0, 0, 0,
};

/* Currency 7, the same qualifying bond long 100 and short 40: 1,080 days (0x0438), coupon 800, issue 5. As it is, 160 basis points
 * of 140 are 2,240,000 mils of specific risk, and of 17,500 long and 7,000 short 10% of the match and what is left are
 * 70,000 + 1,050,000; netted, 160 basis points of 60 are 960,000, and 10,500 long cost 1,050,000. */
static const uint8_t bonds[8 + 2 * 16] = {
    2, 0, 0, 0, 0, 0, 0, 0,
    7, 2, 0x38, 0x04, 0x20, 0x03, 5, 0, 100, 0, 0, 0, 0,  0, 0, 0,
    7, 2, 0x38, 0x04, 0x20, 0x03, 5, 0, 0,   0, 0, 0, 40, 0, 0, 0,
};

/* Currency 7, swap legs of coupon 800: long 100 at 360 days (0x0168), short 100 at 367 (0x016f), long 100 at 370 (0x0172). As they are,
 * 7,000 are long in zone 1, and of 12,500 long and 12,500 short in zone 2 10% count: 700,000 + 125,000 mils. The first leg offsets the
 * second, and 12,500 long cost 1,250,000. With the third leg first it is the third that goes, and 7,000 long cost 700,000. */
static const uint8_t legs[8 + 3 * 16] = {
    3, 0, 0, 0, 0, 0, 0, 0,
    7, 1, 0x68, 0x01, 0x20, 0x03, 0, 0, 100, 0, 0, 0, 0,   0, 0, 0,
    7, 1, 0x6f, 0x01, 0x20, 0x03, 0, 0, 0,   0, 0, 0, 100, 0, 0, 0,
    7, 1, 0x72, 0x01, 0x20, 0x03, 0, 0, 100, 0, 0, 0, 0,   0, 0, 0,
};

/* Currency 7, swap legs of coupon 800: long 100 at 900 days (0x0384), and of issue 7 at 910 (0x038e) short 60 and short 40. As they are,
 * 17,500 are long and 17,500 short in one band, of which 10% count: 175,000 mils. Offsetting alone finds no pair; netted first, the issue is
 * short 100, which goes with the first leg, and nothing is left. */
static const uint8_t together[8 + 3 * 16] = {
    3, 0, 0, 0, 0, 0, 0, 0,
    7, 1, 0x84, 0x03, 0x20, 0x03, 0, 0, 100, 0, 0, 0, 0,  0, 0, 0,
    7, 1, 0x8e, 0x03, 0x20, 0x03, 7, 0, 0,   0, 0, 0, 60, 0, 0, 0,
    7, 1, 0x8e, 0x03, 0x20, 0x03, 7, 0, 0,   0, 0, 0, 40, 0, 0, 0,
};

/* A supervisor's own table, made up: 100 basis points in each of the fifteen bands; per cents
 * within bands, in zones 1, 2, 3, between adjacent zones and between zones 1 and 3. */
static const uint8_t own[36] = {
    100, 0, 100, 0, 100, 0, 100, 0, 100, 0, 100, 0, 100, 0, 100, 0, 100, 0, 100, 0, 100, 0, 100, 0, 100, 0, 100, 0, 100, 0,
    20, 30, 30, 30, 50, 80,
};

/* C.4 of the Amendment, 50 times: a sold call on commodity 5. Amount 25,000 (0x61a8); delta 0.7210 (7,210 is 0x1c2a); gamma 170; vega 84;
 * volatility 20 points (2,000 is 0x07d0); 1,081 days (0x0439). The row is short 18,025, of which 15% are 2,703,750,000 mils. Gamma costs half of
 * 25,000 x 170 x 15 x 15, which is 478,125,000, and vega 84 x 2,000 x 2,500, which is 420,000,000. */
static const uint8_t sold[2 + 18] = {
    1, 0,
    4, 5, 2, 0, 0xa8, 0x61, 0, 0, 0x2a, 0x1c, 170, 0, 84, 0, 0xd0, 0x07, 0x39, 0x04,
};

/* The same, and after it: a sold put on gold, 10, of delta 0, gamma 5; a bought put on commodity 5, 12,500 (0x30d4), delta 0.2790 (0x0ae6), with the
 * gamma, vega, volatility and days of the call; a bought call on the index of market 3, of 3, delta 0.3333 (0x0d05), gamma 9, vega 2, volatility 1 point.
 * Gold gives no row, and 10 x 5 x 8 x 8 / 2 = 1,600 of gamma. The put is short 3,488, half a unit more than exact: with the call's 18,025 that is
 * 21,513, of which 15% are 3,226,950,000. Its gamma leaves half of the call's, 239,062,500, and its vega nothing. The index is long 1, not 0.9999: 2% and
 * 8% of it are 20,000 and 80,000. It is bought, so that its gamma costs nothing; its vega costs 2 x 100 x 2,500 = 500,000. */
static const uint8_t hedged[2 + 4 * 18] = {
    4, 0,
    4, 5, 2, 0, 0xa8, 0x61, 0, 0, 0x2a, 0x1c, 170, 0, 84, 0, 0xd0, 0x07, 0x39, 0x04,
    3, 0, 3, 0, 10,   0,    0, 0, 0,    0,    5,   0, 0,  0, 0,    0,    0,    0,
    4, 5, 1, 0, 0xd4, 0x30, 0, 0, 0xe6, 0x0a, 170, 0, 84, 0, 0xd0, 0x07, 0x39, 0x04,
    2, 3, 0, 3, 3,    0,    0, 0, 0x05, 0x0d, 9,   0, 2,  0, 100,  0,    0,    0,
};

/* Currency 7, a government bond of coupon 800, long 100 at 900 days (0x0384): band 5, where the weight is 175 in document 01's table. 17,500 are
 * left, which is 1,750,000 mils. A unit short in that band leaves 175 less, at 100%, and matches 175, at 10%: 15,750 mils less. 47 units leave
 * 1,009,750 and 48 leave 994,000. 100 leave 175,000, the least: beyond that what is left grows again. A unit short in band 14, where the weight is
 * 1,250, matches so much between zones 2 and 3, at 40%: 75,000 mils less. 10 units leave 1,000,000. In the table of its own above a unit is 100: the
 * bond costs 1,000,000, and a unit short in band 5, with 20% within the band, 8,000 less. 13 leave 896,000. */
static const uint8_t bond[8 + 16] = {
    1, 0, 0, 0, 0, 0, 0, 0,
    7, 1, 0x84, 0x03, 0x20, 0x03, 0, 0, 100, 0, 0, 0, 0, 0, 0, 0,
};

/* Prints the weights and the per cents of a table. */
static void print_table(const char *name, const uint8_t table[36])
{
    printf("%s\nweights", name);
    for (int band = 0; band < 15; band++)
        printf(" %d", table[2 * band] + 256 * table[2 * band + 1]);
    printf("\nper cents");
    for (int place = 30; place < 36; place++)
        printf(" %d", table[place]);
    printf("\n");
}

/* Prints the specific and the general charge of each currency that has one. */
static void print_currencies(const uint64_t specifics[32], const uint64_t generals[32])
{
    for (int g = 0; g < 32; g++) {
        if (specifics[g] != 0 || generals[g] != 0)
            printf("currency %d specific %" PRIu64 " general %" PRIu64 "\n", g, specifics[g], generals[g]);
    }
}

/* Prints the six charges and the total. */
static void print_figures(const uint64_t figures[7])
{
    static const char *const names[7] = {
        "interest-specific", "interest-general", "equity-specific", "equity-general",
        "fx", "commodity", "total",
    };

    for (int i = 0; i < 7; i++)
        printf("%s %" PRIu64 "\n", names[i], figures[i]);
}

static void print_report_under(const uint8_t *table, size_t table_len, const char *name, const uint8_t *book, size_t len)
{
    uint64_t out[75];

    market_risk_charge(book, len, table, table_len, out);
    printf("%s\n", name);
    if (out[0] != 0)
        printf("refused %" PRIu64 " row %" PRIu64 "\n", out[0], out[1]);
    else
        print_figures(out + 3);
    printf("taken %" PRIu64 "\n", out[10]);
    print_currencies(out + 11, out + 43);
}

/* The same under document 01's table. */
static void print_report(const char *name, const uint8_t *book, size_t len)
{
    uint8_t table[36];

    market_risk_table(table);
    print_report_under(table, sizeof table, name, book, len);
}

/* The zones book under the table above: zone 1 is long 7,500, zone 2 short 3,000 and zone 3 long 1,000; zones 1 and 2 match 3,000
 * at 50%, and 5,500 are left, which is 150,000 + 550,000 mils. Then under the table's first 35 bytes, and with a first weight that
 * is above the second. */
static void print_loaded(void)
{
    uint8_t falling[sizeof own];

    memcpy(falling, own, sizeof own);
    falling[0] = 101;
    print_table("a table of its own", own);
    print_report_under(own, sizeof own, "zones book under it", zones, sizeof zones);
    print_report_under(own, sizeof own - 1, "zones book under a table without its last byte", zones, sizeof zones);
    print_report_under(falling, sizeof falling, "zones book under a table whose weights fall", zones, sizeof zones);
}

static void print_small_bank(const char *name, const uint8_t *book, size_t len)
{
    uint64_t out[6];

    market_risk_small_bank(book, len, out);
    printf("%s\n", name);
    if (out[0] != 0)
        printf("refused %" PRIu64 " row %" PRIu64 "\n", out[0], out[1]);
    else
        printf("fx %" PRIu64 "\ncommodity %" PRIu64 "\ntotal %" PRIu64 "\n", out[3], out[4], out[5]);
}

/* Charges the netted book, which is never longer than the book, and tells how many comparisons the netting took. */
static void print_netted(const char *name, const uint8_t book[sizeof bonds])
{
    uint8_t netted[sizeof bonds];
    uint64_t result[5];

    market_risk_net(book, sizeof bonds, netted, sizeof netted, result);
    if (result[0] != 0) {
        printf("%s\nrefused %" PRIu64 " row %" PRIu64 "\n", name, result[0], result[1]);
        return;
    }
    print_report(name, netted, result[3]);
    printf("comparisons %" PRIu64 "\n", result[4]);
}

/* Charges the book without its offsetting legs, which is never longer than the book. */
static void print_offset(const char *name, const uint8_t book[sizeof legs])
{
    uint8_t left[sizeof legs];
    uint64_t result[4];

    market_risk_offset(book, sizeof legs, left, sizeof left, result);
    if (result[0] != 0)
        printf("%s\nrefused %" PRIu64 " row %" PRIu64 "\n", name, result[0], result[1]);
    else
        print_report(name, left, result[3]);
}

/* Charges what is left when the book is netted and then offset, in one call, and tells how many comparisons that took. */
static void print_net_and_offset(const char *name, const uint8_t book[sizeof together])
{
    uint8_t left[sizeof together];
    uint64_t result[5];

    market_risk_net_and_offset(book, sizeof together, left, sizeof left, result);
    if (result[0] != 0) {
        printf("%s\nrefused %" PRIu64 " row %" PRIu64 "\n", name, result[0], result[1]);
        return;
    }
    print_report(name, left, result[3]);
    printf("comparisons %" PRIu64 "\n", result[4]);
}

/* Prints the bytes of the shortest file that shows why a book is refused, and what it is refused with itself. */
static void print_shortest(const char *name, const uint8_t *book, size_t len)
{
    uint8_t file[24]; /* always enough */
    uint64_t result[5], check[3];

    market_risk_shortest(book, len, file, sizeof file, result);
    printf("%s\n", name);
    if (result[0] != 0) {
        printf("refused %" PRIu64 "\n", result[0]);
    } else if (result[4] == 1) {
        printf("accepted\n");
    } else {
        printf("bytes %" PRIu64 ":", result[3]);
        for (size_t i = 0; i < result[3]; i++)
            printf(" %d", file[i]);
        market_risk_check(file, result[3], check);
        printf("\nrefused %" PRIu64 " row %" PRIu64 "\n", check[0], check[1]);
    }
}

/* Charges the dearest book of some rows of at most an amount, and prints the total that is told of it. There is room for two rows. */
static void print_dearest(const char *name, size_t rows, uint64_t most)
{
    uint8_t book[8 + 2 * 16];
    uint64_t result[5];

    market_risk_dearest(rows, most, book, sizeof book, result);
    if (result[0] != 0) {
        printf("%s\nrefused %" PRIu64 "\n", name, result[0]);
        return;
    }
    print_report(name, book, result[3]);
    printf("told %" PRIu64 "\n", result[4]);
}

/* A number of four bytes. */
static uint32_t four(const uint8_t *at)
{
    return at[0] | at[1] << 8 | at[2] << 16 | (uint32_t)at[3] << 24;
}

/* Prints the rows of the options' deltas and what they cost, and gamma and vega, which are in none of these charges. There is room for three rows. */
static void print_options(const char *name, const uint8_t *table, size_t len)
{
    uint8_t book[8 + 3 * 16];
    uint64_t result[17];

    market_risk_options(table, len, book, sizeof book, result);
    printf("%s\n", name);
    if (result[0] != 0) {
        printf("refused %" PRIu64 " row %" PRIu64 "\n", result[0], result[1]);
        return;
    }
    for (const uint8_t *row = book + 8; row < book + result[3]; row += 16)
        printf("row group %d kind %d days %d long %" PRIu32 " short %" PRIu32 "\n", row[0], row[1], row[2] + 256 * row[3], four(row + 8), four(row + 12));
    print_figures(result + 10);
    printf("gamma equity %" PRIu64 " fx %" PRIu64 " commodity %" PRIu64 "\n", result[4], result[5], result[6]);
    printf("vega equity %" PRIu64 " fx %" PRIu64 " commodity %" PRIu64 "\n", result[7], result[8], result[9]);
}

/* The tables above, one without options, and three that are refused. */
static void print_all_options(void)
{
    static const uint8_t none[2];
    uint8_t bad[sizeof hedged], more[sizeof hedged];

    memcpy(bad, hedged, sizeof hedged);
    bad[2 + 2 * 18] = 1; /* the third is on interest */
    memcpy(more, hedged, sizeof hedged);
    more[2 + 18 + 8] = 1; /* the one on gold has a delta */
    print_options("option table of one sold call", sold, sizeof sold);
    print_options("option table of four", hedged, sizeof hedged);
    print_options("option table without options", none, sizeof none);
    print_options("option table of four without its last byte", hedged, sizeof hedged - 1);
    print_options("option table of four, the third on interest", bad, sizeof bad);
    print_options("option table of four that all give a row, for which there is no room", more, sizeof more);
}

/* Prints the least amount that brings currency 7 of the bond's book to at most limit mils, added to a band on a side: 0 long, 1 short. */
static void print_least_trade(const char *name, const uint8_t table[36], size_t band, size_t side, uint64_t limit)
{
    uint64_t result[5];

    market_risk_least_trade(bond, sizeof bond, table, 36, 7, band, side, limit, result);
    printf("%s\n", name);
    if (result[0] != 0)
        printf("refused %" PRIu64 " row %" PRIu64 "\n", result[0], result[1]);
    else if (result[3] == 0)
        printf("none\n");
    else
        printf("amount %" PRIu64 "\n", result[4]);
}

/* Limits that some amount reaches, limits that none does, and a band and a side that there are not. */
static void print_least_trades(void)
{
    uint8_t table[36];

    market_risk_table(table);
    print_least_trade("least short of band 5 to cost 1,000,000", table, 5, 1, 1000000);
    print_least_trade("least short of band 5 to cost 1,009,750", table, 5, 1, 1009750);
    print_least_trade("least short of band 14 to cost 1,000,000", table, 14, 1, 1000000);
    print_least_trade("least short of band 5 to cost 1,750,000", table, 5, 1, 1750000);
    print_least_trade("least short of band 5 to cost 175,000", table, 5, 1, 175000);
    print_least_trade("least short of band 5 to cost 174,999", table, 5, 1, 174999);
    print_least_trade("least short of band 5 to cost nothing", table, 5, 1, 0);
    print_least_trade("least long of band 5 to cost 1,000,000", table, 5, 0, 1000000);
    print_least_trade("least short of band 5 to cost 900,000 under the table of its own", own, 5, 1, 900000);
    print_least_trade("least short of band 15 to cost 1,000,000", table, 15, 1, 1000000);
    print_least_trade("least of side 2 of band 5 to cost 1,000,000", table, 5, 2, 1000000);
}

int main(void)
{
    static const uint8_t zeros[8 + 1];
    uint8_t spoiled[sizeof classes], ended[sizeof floating], unlike[sizeof bonds], turned[sizeof legs], apart[sizeof together], table[36];

    market_risk_table(table);
    print_table("document 01's table", table);
    memcpy(spoiled, classes, sizeof classes);
    spoiled[8 + 3 * 16 + 8] = 0; /* the last row: both amounts are 0 */
    memcpy(ended, floating, sizeof floating);
    ended[8 + 4] = 89, ended[8 + 5] = 0; /* final maturity a day before the fixing */
    print_report("equity book", equity, sizeof equity);
    print_report("zones book", zones, sizeof zones);
    print_report("book of four classes", classes, sizeof classes);
    print_report("book of two currencies", currencies, sizeof currencies);
    print_report("book of a floating-rate note", floating, sizeof floating);
    print_report("equity book without its last byte", equity, sizeof equity - 1);
    print_report("book of four classes, its last row bad", spoiled, sizeof spoiled);
    print_report("book of a floating-rate note that ends before its fixing", ended, sizeof ended);
    print_loaded();
    print_small_bank("book of a small bank", small, sizeof small);
    print_small_bank("book of four classes, as a small bank's", classes, sizeof classes);
    memcpy(unlike, bonds, sizeof bonds);
    unlike[8 + 16 + 2] = 0x37; /* the second bond is a day shorter */
    print_report("book of one bond, long and short", bonds, sizeof bonds);
    print_netted("the same, netted", bonds);
    print_netted("book of two bonds of one number, netted", unlike);
    memcpy(turned, legs, sizeof legs);
    memcpy(turned + 8, legs + 8 + 2 * 16, 16); /* the first and the last leg exchanged */
    memcpy(turned + 8 + 2 * 16, legs + 8, 16);
    print_report("book of three swap legs", legs, sizeof legs);
    print_offset("the same, offset", legs);
    print_offset("the same with its last leg first, offset", turned);
    memcpy(apart, together, sizeof together);
    apart[8 + 2 * 16 + 2] = 0x8f; /* the last leg is a day longer than the first of its issue */
    print_report("book of two legs of one issue and a third", together, sizeof together);
    print_offset("the same, offset", together);
    print_net_and_offset("the same, netted and offset", together);
    print_net_and_offset("the same with its last leg a day longer, netted and offset", apart);
    print_shortest("book of four classes, its last row bad, shown", spoiled, sizeof spoiled);
    print_shortest("book of a floating-rate note that ends before its fixing, shown", ended, sizeof ended);
    print_shortest("equity book without its last byte, shown", equity, sizeof equity - 1);
    print_shortest("book without rows and a byte too long, shown", zeros, sizeof zeros);
    print_shortest("book of seven bytes, shown", zeros, 7);
    print_shortest("book of four classes, shown", classes, sizeof classes);
    print_dearest("dearest book of two rows of at most 100", 2, 100);
    print_dearest("dearest book without rows", 0, 1);
    print_dearest("dearest book of three rows, for which there is no room", 3, 100);
    print_dearest("dearest book of 4,001 rows", 4001, 100);
    print_dearest("dearest book of two rows of at most 0", 2, 0);
    print_all_options();
    print_least_trades();
    return 0;
}
