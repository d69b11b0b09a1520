/* Bands and specific weights, as tables. */

#include <stdint.h>

/* Days share a cell by sixes: every band's last day is a multiple of 6. */
#define CELL(days) (((days) + 5) / 6)
#define CELLS (CELL(36000) + 1)
#define UP_TO(last) [0 ... CELL(last)]
#define FROM(after, last) [CELL(after) + 1 ... CELL(last)]
#define OVER(after) [CELL(after) + 1 ... CELLS - 1]

/* The interest band of each cell: coupons of 300 and more, then those below. Up to 360 days they
 * are the same, so that either column serves a floating-rate note. */
static const uint8_t INTEREST[2][CELLS] = {
    {UP_TO(30) = 0, FROM(30, 90) = 1, FROM(90, 180) = 2, FROM(180, 360) = 3,
     FROM(360, 720) = 4, FROM(720, 1080) = 5, FROM(1080, 1440) = 6, FROM(1440, 1800) = 7,
     FROM(1800, 2520) = 8, FROM(2520, 3600) = 9, FROM(3600, 5400) = 10,
     FROM(5400, 7200) = 11, OVER(7200) = 12},
    {UP_TO(30) = 0, FROM(30, 90) = 1, FROM(90, 180) = 2, FROM(180, 360) = 3,
     FROM(360, 684) = 4, FROM(684, 1008) = 5, FROM(1008, 1296) = 6, FROM(1296, 1548) = 7,
     FROM(1548, 2052) = 8, FROM(2052, 2628) = 9, FROM(2628, 3348) = 10,
     FROM(3348, 3816) = 11, FROM(3816, 4320) = 12, FROM(4320, 7200) = 13, OVER(7200) = 14}};

/* The commodity band of each cell. */
static const uint8_t COMMODITY[CELLS] = {
    UP_TO(30) = 0, FROM(30, 90) = 1, FROM(90, 180) = 2, FROM(180, 360) = 3,
    FROM(360, 720) = 4, FROM(720, 1080) = 5, OVER(1080) = 6};

/* Specific weights by kind: of interest by final maturity, up to 180 days, 720 and over; of
 * equity. */
static const uint32_t SPECIFIC[8][4] = {
    {0}, {0}, {25, 100, 160}, {800, 800, 800}, {25, 100, 160}};
static const uint32_t EQUITY[4] = {0, 800, 400, 200};
