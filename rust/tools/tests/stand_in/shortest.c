/* The shortest file that shows a refusal, from the proved call: as it should be, or with a wrong
 * reading. */
#include "faults.h"

void proved_check(const uint8_t *book, size_t len, uint64_t *out);
void proved_shortest(const uint8_t *book, size_t len, uint8_t *out, size_t out_len,
                     uint64_t *result);

enum { MOST_BYTES = 65536 };

/* A file, its length and the mark. */
struct file {
    uint8_t bytes[MOST_BYTES];
    size_t length;
    uint64_t mark;
};

static size_t count(const uint8_t *contents, int class) {
    return contents[2 * class] + 256u * contents[2 * class + 1];
}

/* The file of a bad row, by the reading: in the first class, under the class's own count, or with
 * the row that has the bad one's place in its class. */
static void misplace(const uint8_t *book, const uint64_t refusal[3], struct file *file) {
    size_t row = refusal[1];
    int class = 0;
    while (row >= count(book, class)) row -= count(book, class++);
    if (named("first_class")) file->bytes[2 * class] = 0, file->bytes[0] = 1;
    if (named("class_count_kept")) memcpy(file->bytes + 2 * class, book + 2 * class, 2);
    if (named("row_in_class")) memcpy(file->bytes + 8, book + 8 + 16 * row, 16);
}

/* The last of the bad rows. */
static void take_last(const uint8_t *book, struct file *file) {
    uint8_t alone[24];
    uint64_t refusal[3];
    size_t row = 0;
    for (int class = 0; class < 4; class++)
        for (size_t i = 0; i < count(book, class); i++, row++) {
            memset(alone, 0, sizeof alone);
            alone[2 * class] = 1;
            memcpy(alone + 8, book + 8 + 16 * row, 16);
            proved_check(alone, sizeof alone, refusal);
            if (refusal[0] != 0) memcpy(file->bytes, alone, sizeof alone);
        }
}

/* What is to be written of a book, by the reading. */
static void misread(const uint8_t *book, size_t len, const uint64_t refusal[3], struct file *file) {
    static const uint8_t zeros[8], one[8] = {1};
    uint64_t result[5];
    proved_shortest(book, len, file->bytes, MOST_BYTES, result);
    file->length = result[3], file->mark = result[4];
    if (refusal[0] > 3) misplace(book, refusal, file);
    if (refusal[0] > 3 && named("last_row")) take_last(book, file);
    if (refusal[0] == 3 && named("one_always")) memcpy(file->bytes, one, sizeof one);
    if (refusal[0] == 3 && named("zeros_kept") && !memcmp(book, zeros, sizeof zeros))
        file->bytes[0] = 0;
    if (refusal[0] == 2 && named("rows_kept") && len <= MOST_BYTES)
        memcpy(file->bytes, book, len), file->length = len;
    if (named("mark_missing")) file->mark = 0;
    if (named("mark_of_one") && refusal[0] == 1) file->mark = 1;
}

/* Whether there is room, by the reading. */
static int room(size_t out_len, uint64_t number, const struct file *file) {
    if (named("twelve_of_one") && number == 1) return out_len >= 8;
    if (named("twelve_of_accepted") && number == 0) return out_len >= 8;
    if (named("twelve_at_equal") && file->length > 0) return out_len > file->length;
    if (named("shown_twelve_late")) return out_len + 1 >= file->length;
    return out_len >= file->length;
}

void market_risk_shortest(const uint8_t *book, size_t len, uint8_t *out, size_t out_len,
                          uint64_t result[5]) {
    static struct file file;
    uint64_t refusal[3];
    if (taken_out("shortest", result, 5)) return;
    proved_check(book, len, refusal);
    misread(book, len, refusal, &file);
    memset(result, 0, 5 * sizeof *result);
    if (named("own_refusal") && refusal[0] != 0) {
        memcpy(result, refusal, sizeof refusal);
    } else if (!room(out_len, refusal[0], &file)) {
        result[0] = 12, result[3] = named("shown_length_told") ? file.length : 0;
        if (named("shown_twelve_writes") && out_len > 0) out[0] ^= 1;
    } else {
        result[1] = named("row_told") ? refusal[1] : 0;
        result[3] = file.length, result[4] = file.mark;
        if (file.length > 0 && out_len > 0)
            memcpy(out, file.bytes, file.length < out_len ? file.length : out_len);
        if (named("shown_cleared") && out_len > file.length)
            memset(out + file.length, 0, out_len - file.length);
    }
}
