/* The replay program as plain C would have it: a step record of 1,800 bytes at a time from standard input, a line for each on standard
   output. A record is kind, signs, mode, five zero bytes, then A, B, C and D. */
#include <inttypes.h>
#include <stdio.h>
#include <string.h>

/* In plain.c. */
uint64_t plain_c_step(uint32_t kind, uint32_t signs, uint32_t mode, const uint32_t *a, size_t na, const uint32_t *b, size_t nb,
                      const uint32_t *c, size_t nc, uint32_t *d, size_t nd);
uint64_t plain_c_find(uint32_t kind, uint32_t role, uint32_t row, uint32_t column, uint32_t out[2]);

enum { RECORD = 1800, HEAD = 8, RESERVED = 3, MOST_WORDS = 128 };
enum { LANES = 32, WORD = 4, COLUMNS = 8, KINDS = 14, PLAIN = 255 };
enum { A, B, C, D, PARTS };

static const size_t PART_BYTES[PARTS] = {512, 256, 512, 512};

/* Words a lane of A, B, C and D; none where the kind has no arithmetic. */
static const size_t WORDS[KINDS + 1][PARTS] = {
    [1] = {1, 1, 2, 2},  [2] = {2, 1, 4, 4},  [3] = {4, 2, 4, 4},  [4] = {2, 1, 4, 4},  [5] = {4, 2, 4, 4},
    [11] = {1, 1, 2, 2}, [12] = {1, 1, 2, 2}, [13] = {2, 1, 4, 4}, [14] = {4, 2, 4, 4},
};

static int is_arithmetic(uint32_t kind) {
    return kind <= KINDS && WORDS[kind][A] > 0;
}

static int all_zero(const unsigned char *bytes, size_t n) {
    for (size_t i = 0; i < n; i++)
        if (bytes[i])
            return 0;
    return 1;
}

/* Reserved bytes and, in the arithmetic kinds, unused tails. */
static int unused_zero(const unsigned char *record) {
    uint32_t kind = record[0];
    if (!all_zero(record + RESERVED, HEAD - RESERVED))
        return 0;
    if (!is_arithmetic(kind))
        return 1;
    const unsigned char *part = record + HEAD;
    for (size_t i = 0; i < PARTS; part += PART_BYTES[i++]) {
        size_t used = LANES * WORDS[kind][i] * WORD;
        if (!all_zero(part + used, PART_BYTES[i] - used))
            return 0;
    }
    return 1;
}

/* The words of A, B, C and D. */
static void read_words(const unsigned char *record, uint32_t words[PARTS][MOST_WORDS]) {
    const unsigned char *part = record + HEAD;
    for (size_t i = 0; i < PARTS; part += PART_BYTES[i++])
        for (size_t j = 0; j < PART_BYTES[i] / WORD; j++) {
            const unsigned char *byte = part + j * WORD;
            words[i][j] = byte[0] | (uint32_t)byte[1] << 8 | (uint32_t)byte[2] << 16 | (uint32_t)byte[3] << 24;
        }
}

/* The first place, row-major, where the words of D that are right and those that were logged differ. */
static void print_wrong(uint32_t kind, const uint32_t *right, const uint32_t *logged) {
    uint32_t place = 0, holder[2];
    size_t word;
    do {
        plain_c_find(kind, C, place / COLUMNS, place % COLUMNS, holder);
        word = holder[0] * WORDS[kind][D] + holder[1];
        place++;
    } while (right[word] == logged[word]);
    printf(" wrong %u %u\n", (unsigned)(place - 1) / COLUMNS, (unsigned)(place - 1) % COLUMNS);
}

static void answer(uint64_t number, const unsigned char *record) {
    uint32_t kind = record[0], signs = record[1], mode = record[2], words[PARTS][MOST_WORDS], d[MOST_WORDS];
    size_t n[PARTS];
    printf("%" PRIu64, number);
    if (!unused_zero(record)) {
        printf(" refused 11\n");
        return;
    }
    for (size_t i = 0; i < PARTS; i++)
        n[i] = is_arithmetic(kind) ? LANES * WORDS[kind][i] : 0;
    read_words(record, words);
    if (signs == 0 && mode == PLAIN)
        mode = 0;
    uint64_t refused = plain_c_step(kind, signs, mode, words[A], n[A], words[B], n[B], words[C], n[C], d, n[D]);
    if (refused)
        printf(" refused %u\n", (unsigned)refused);
    else if (memcmp(d, words[D], n[D] * sizeof *d) != 0)
        print_wrong(kind, d, words[D]);
    else
        printf(" ok\n");
}

int main(void) {
    unsigned char record[RECORD];
    for (uint64_t number = 0; fread(record, 1, RECORD, stdin) == RECORD; number++)
        answer(number, record);
    return 0;
}
