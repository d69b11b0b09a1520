/* Prints the bytes of stack that each call of the library takes: the call runs on a stack of its own that was painted before,
 * and what is no longer paint was used. The frames of main's side are in the figure. */
#include "market_risk.h"

#include <stdio.h>
#include <string.h>
#include <ucontext.h>

enum { ROOM = 256 * 1024, PAINT = 0xa5, ROWS = 1000 };

static _Alignas(16) volatile uint8_t room[ROOM];

/* 1,000 rows of each class, group 1, days 270 or 0, long 5: with every class every part of a call runs. */
static uint8_t book[8 + 4 * ROWS * 16];
static uint8_t joined[sizeof book];

/* The same book with rows of 100 issues in each class, number 0 among them. */
static uint8_t issues[sizeof book];

/* The same book with government rows in interest, whose sides change from row to row: every two of them offset. */
static uint8_t legs[sizeof book];

/* The same legs with issue numbers: every two rows that offset are of two issues. */
static uint8_t both[sizeof book];

/* The same book with a bad last row. */
static uint8_t bad[sizeof book];

/* A small bank's book: the last two classes of the one above. */
static uint8_t small[8 + 2 * ROWS * 16];

/* As many options as there can be, of each class and right in turn, whose deltas are rounded. */
static uint8_t options[2 + ROWS * 18];

static uint64_t out[75];
static uint8_t table[36];

static void fill(void)
{
    static const uint8_t rows[4][16] = {
        {1, 3, 0x0e, 0x01, 0x20, 0x03, 0, 0, 5}, {1, 1, 0, 0, 0, 0, 0, 0, 5}, {1, 0, 0, 0, 0, 0, 0, 0, 5}, {1, 0, 0x0e, 0x01, 0, 0, 0, 0, 5},
    };
    for (size_t class = 0; class < 4; class++) {
        book[2 * class] = ROWS % 256;
        book[2 * class + 1] = ROWS / 256;
        for (size_t i = 0; i < ROWS * 16; i++)
            book[8 + class * ROWS * 16 + i] = rows[class][i % 16];
    }
    memcpy(small + 4, book + 4, 4);
    memcpy(small + 8, book + 8 + 2 * ROWS * 16, 2 * ROWS * 16);
    memcpy(issues, book, sizeof book);
    for (size_t row = 0; row < 4 * ROWS; row++)
        issues[8 + 16 * row + 6] = row % 100;
    memcpy(legs, book, sizeof book);
    for (size_t row = 0; row < ROWS; row++) {
        legs[8 + 16 * row + 1] = 1;
        legs[8 + 16 * row + 8] = row % 2 == 0 ? 5 : 0;
        legs[8 + 16 * row + 12] = row % 2 == 0 ? 0 : 5;
    }
    memcpy(both, legs, sizeof legs);
    for (size_t row = 0; row < 4 * ROWS; row++)
        both[8 + 16 * row + 6] = row % 100;
    memcpy(bad, book, sizeof book);
    bad[sizeof bad - 16] = 32;
    options[0] = ROWS % 256;
    options[1] = ROWS / 256;
    for (size_t row = 0; row < ROWS; row++) {
        uint8_t option[18] = {2 + row % 3, row % 32, row % 4, row % 3 == 0, 7, 0, 0, 0, 0x0f, 0x27, 5, 0, 3, 0, 2, 0};
        memcpy(options + 2 + 18 * row, option, sizeof option);
    }
}

static void check(void) { market_risk_check(book, sizeof book, out); }
static void part(void) { market_risk_part(book, sizeof book, 4, out); }
static void give_table(void) { market_risk_table(table); }
static void charge(void) { market_risk_charge(book, sizeof book, table, sizeof table, out); }
static void interest_ladder(void) { market_risk_interest_ladder(book, sizeof book, table, sizeof table, 1, out); }
static void commodity_ladder(void) { market_risk_commodity_ladder(book, sizeof book, 1, out); }
static void small_bank(void) { market_risk_small_bank(small, sizeof small, out); }
static void join(void)
{
    static const uint8_t empty[8];
    market_risk_join(book, sizeof book, empty, sizeof empty, joined, sizeof joined, out);
}

static void net(void) { market_risk_net(issues, sizeof issues, joined, sizeof joined, out); }
static void offset(void) { market_risk_offset(legs, sizeof legs, joined, sizeof joined, out); }
static void net_and_offset(void) { market_risk_net_and_offset(both, sizeof both, joined, sizeof joined, out); }

static void shortest(void) { market_risk_shortest(bad, sizeof bad, joined, sizeof joined, out); }

/* As many rows as there can be. */
static void dearest(void) { market_risk_dearest(4 * ROWS, 1000000000, joined, sizeof joined, out); }

static void price(void) { market_risk_options(options, sizeof options, joined, sizeof joined, out); }

/* A limit that no amount brings the currency to: every amount is within reach of the search. */
static void least_trade(void) { market_risk_least_trade(book, sizeof book, table, sizeof table, 1, 3, 1, 0, out); }

static size_t used(void (*call)(void))
{
    ucontext_t here, there;
    size_t untouched = 0;

    for (size_t i = 0; i < ROOM; i++)
        room[i] = PAINT;
    getcontext(&there);
    there.uc_stack.ss_sp = (void *)room;
    there.uc_stack.ss_size = ROOM;
    there.uc_link = &here;
    makecontext(&there, call, 0);
    swapcontext(&here, &there);
    while (untouched < ROOM && room[untouched] == PAINT)
        untouched++;
    return ROOM - untouched;
}

/* The call must be accepted: a refused one stops early. */
static int print_used(const char *name, void (*call)(void))
{
    printf("market_risk_%s %zu\n", name, used(call));
    return out[0] == 0 ? 0 : 1;
}

int main(void)
{
    int refused;

    fill();
    refused = print_used("check", check) + print_used("part", part);
    refused += print_used("table", give_table); /* the next two and the last take this table */
    refused += print_used("charge", charge) + print_used("interest_ladder", interest_ladder);
    refused += print_used("commodity_ladder", commodity_ladder) + print_used("small_bank", small_bank);
    refused += print_used("join", join) + print_used("net", net);
    refused += print_used("offset", offset) + print_used("net_and_offset", net_and_offset);
    refused += print_used("shortest", shortest) + print_used("dearest", dearest);
    refused += print_used("options", price);
    return refused + print_used("least_trade", least_trade);
}
