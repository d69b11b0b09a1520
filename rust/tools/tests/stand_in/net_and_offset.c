/* Netting and then offsetting, put together from the proved calls: as it should be, or with a
 * wrong reading. */
#include "faults.h"

void proved_net(const uint8_t *book, size_t len, uint8_t *out, size_t out_len, uint64_t *result);
void proved_offset(const uint8_t *book, size_t len, uint8_t *out, size_t out_len,
                   uint64_t *result);
void proved_net_and_offset(const uint8_t *book, size_t len, uint8_t *out, size_t out_len,
                           uint64_t *result);

enum { MOST_BYTES = 8 + 4000 * 16 };

/* What a call has written with all the room that it can want, and its result. */
struct left {
    uint8_t book[MOST_BYTES];
    uint64_t result[5];
};

static void net(const uint8_t *book, size_t len, struct left *left) {
    proved_net(book, len, left->book, MOST_BYTES, left->result);
}

static void offset(const uint8_t *book, size_t len, struct left *left) {
    proved_offset(book, len, left->book, MOST_BYTES, left->result);
    left->result[4] = 0;
}

/* What is left by the reading, and the comparisons of the book where there are any. */
static void misread(const uint8_t *book, size_t len, struct left *left) {
    static struct left first;
    uint64_t comparisons;
    proved_net_and_offset(book, len, left->book, MOST_BYTES, left->result);
    comparisons = left->result[4];
    offset(book, len, &first);
    if (first.result[0] != 0) return;
    if (named("offset_first")) net(first.book, first.result[3], left);
    if (named("not_netted")) *left = first;
    if (named("issues_not_told") && left->result[0] != 0) *left = first;
    if (named("fourteen_skipped") && left->result[0] == 14) *left = first;
    if (left->result[0] != 0) return;
    net(book, len, &first);
    if (named("not_offset")) *left = first;
    left->result[4] = named("count_none") ? 0 : comparisons;
}

/* Whether there is room, by the reading. */
static int room(size_t out_len, const struct left *left, const struct left *netted) {
    if (named("twelve_of_netted")) return out_len >= netted->result[3];
    if (named("both_twelve_late")) return out_len + 1 >= left->result[3];
    return out_len >= left->result[3];
}

void market_risk_net_and_offset(const uint8_t *book, size_t len, uint8_t *out, size_t out_len,
                                uint64_t result[5]) {
    static struct left left, netted;
    if (taken_out("net_and_offset", result, 5)) return;
    misread(book, len, &left);
    net(book, len, &netted);
    memcpy(result, left.result, sizeof left.result);
    if (named("both_twelve_first") && result[0] > 12 && result[0] < 15 && out_len < len)
        result[0] = 12, result[1] = 0;
    if (result[0] != 0) return;
    if (!room(out_len, &left, &netted)) {
        memset(result, 0, sizeof left.result);
        result[0] = 12, result[3] = named("both_length_told") ? left.result[3] : 0;
        if (named("both_twelve_writes") && out_len > 0) out[0] ^= 1;
        return;
    }
    if (named("netted_left") && out_len >= netted.result[3])
        memcpy(out, netted.book, netted.result[3]);
    memcpy(out, left.book, left.result[3] < out_len ? left.result[3] : out_len);
}
