/* The calls of include/wazimroot.h as plain C would have them: obvious loops over a table of kinds, no proofs, nothing tuned by hand.
   Each call takes what the library's call takes, gives the same answer, refuses the same and writes the same. */
#include <string.h>

#include "wazimroot.h"

enum { LANES = 32, QUAD = 4, HALF = 8, WORD_BITS = 32 };
enum { ROLE_A, ROLE_B, ROLE_C };
enum { KINDS_COUNT = 14 };

/* The largest A and B of an integer step, and the columns that B and D have in every kind. */
enum { MAX_M = 16, MAX_K = 64, N = 8 };

/* Shape, bits of an element of A or B and of C or D, words a lane for each role. */
struct kind {
    size_t m, k, bits, sum_bits, words[3];
};

static const struct kind KINDS[KINDS_COUNT] = {
    {8, 128, 1, 32, {1, 1, 2}}, {16, 16, 8, 32, {2, 1, 4}}, {16, 32, 8, 32, {4, 2, 4}}, {16, 32, 4, 32, {2, 1, 4}},
    {16, 64, 4, 32, {4, 2, 4}}, {16, 8, 16, 32, {2, 1, 4}}, {16, 8, 16, 16, {2, 1, 2}}, {16, 8, 32, 32, {4, 2, 4}},
    {16, 8, 64, 64, {8, 4, 8}}, {8, 4, 64, 64, {2, 2, 4}},  {8, 16, 8, 32, {1, 1, 2}},  {8, 32, 4, 32, {1, 1, 2}},
    {16, 128, 1, 32, {2, 1, 4}}, {16, 256, 1, 32, {4, 2, 4}},
};

/* How a matrix lies in the lanes: each lane has groups of elements that stand side by side, in a row of A and C, in a column of B. */
struct layout {
    size_t role, rows, columns, bits, words, side, groups, halves;
};

static struct layout layout_of(size_t kind, size_t role) {
    const struct kind *k = &KINDS[kind - 1];
    struct layout l;
    l.role = role;
    l.rows = role == ROLE_B ? k->k : k->m;
    l.columns = role == ROLE_A ? k->k : N;
    l.bits = role == ROLE_C ? k->sum_bits : k->bits;
    l.words = k->words[role];
    l.side = role == ROLE_C ? 2 : k->bits < WORD_BITS ? WORD_BITS / k->bits : 1;
    l.groups = l.words * WORD_BITS / l.bits / l.side;
    l.halves = role == ROLE_B ? 1 : k->m / HALF;
    return l;
}

struct place {
    size_t row, column;
};

static struct place place_of(const struct layout *l, size_t lane, size_t group, size_t i) {
    size_t major = group % l->halves * HALF + lane / QUAD;
    size_t minor = (group / l->halves * QUAD + lane % QUAD) * l->side + i;
    return l->role == ROLE_B ? (struct place){minor, major} : (struct place){major, minor};
}

struct holder {
    size_t lane, element;
};

static struct holder holder_of(const struct layout *l, size_t row, size_t column) {
    size_t major = l->role == ROLE_B ? column : row;
    size_t minor = l->role == ROLE_B ? row : column;
    size_t group = minor / l->side / QUAD * l->halves + major / HALF;
    return (struct holder){major % HALF * QUAD + minor / l->side % QUAD, group * l->side + minor % l->side};
}

static size_t index_of(const struct layout *l, size_t lane, size_t group, size_t i) {
    struct place at = place_of(l, lane, group, i);
    return at.row * l->columns + at.column;
}

static uint32_t low_bits(uint32_t word, size_t bits) {
    return word & 0xffffffffu >> (WORD_BITS - bits);
}

static uint64_t get_element(const uint32_t *words, size_t bits, size_t element) {
    size_t bit = element * bits;
    if (bits == 64)
        return words[2 * element] | (uint64_t)words[2 * element + 1] << WORD_BITS;
    return low_bits(words[bit / WORD_BITS] >> bit % WORD_BITS, bits);
}

/* Into words that are 0 so far. */
static void put_element(uint32_t *words, size_t bits, size_t element, uint64_t entry) {
    size_t bit = element * bits;
    if (bits == 64) {
        words[2 * element] = (uint32_t)entry;
        words[2 * element + 1] = (uint32_t)(entry >> WORD_BITS);
    } else {
        words[bit / WORD_BITS] |= (uint32_t)entry << bit % WORD_BITS;
    }
}

static uint64_t refusal(uint32_t number, uint32_t detail) {
    return number | (uint64_t)detail << 32;
}

static uint64_t judge_role(uint32_t kind, uint32_t role) {
    if (kind < 1 || kind > KINDS_COUNT)
        return refusal(WZ_UNKNOWN_KIND, 0);
    if (role > ROLE_C)
        return refusal(WZ_UNKNOWN_ROLE, 0);
    return 0;
}

uint64_t plain_c_place(uint32_t kind, uint32_t role, uint32_t lane, uint32_t element, uint32_t out[4]) {
    uint64_t refused = judge_role(kind, role);
    if (refused)
        return refused;
    struct layout l = layout_of(kind, role);
    if (lane >= LANES || element >= l.groups * l.side)
        return refusal(WZ_OUTSIDE, 0);
    struct place at = place_of(&l, lane, element / l.side, element % l.side);
    out[0] = (uint32_t)at.row;
    out[1] = (uint32_t)at.column;
    out[2] = (uint32_t)(element * l.bits / WORD_BITS);
    out[3] = (uint32_t)(element * l.bits % WORD_BITS);
    return 0;
}

uint64_t plain_c_find(uint32_t kind, uint32_t role, uint32_t row, uint32_t column, uint32_t out[2]) {
    uint64_t refused = judge_role(kind, role);
    if (refused)
        return refused;
    struct layout l = layout_of(kind, role);
    if (row >= l.rows || column >= l.columns)
        return refusal(WZ_OUTSIDE, 0);
    struct holder by = holder_of(&l, row, column);
    out[0] = (uint32_t)by.lane;
    out[1] = (uint32_t)by.element;
    return 0;
}

/* Kind 5's A by tables: entry 32 l + i of the first is 64 times row plus column, entry 64 r + c of the second 32 times lane plus element. */
enum { TABLE_KIND = 5, TABLE_ELEMENTS = 32, TABLE_ROWS = 16, TABLE_COLUMNS = 64, TABLE_BITS = 4 };

#define PLACE(l, i) (((i) / 8 % 2 * 8 + (l) / 4) * 64 + (i) / 16 * 32 + (l) % 4 * 8 + (i) % 8)
#define HOLDER(r, c) (((r) % 8 * 4 + (c) / 8 % 4) * 32 + ((c) / 32 * 2 + (r) / 8) * 8 + (c) % 8)
#define EIGHT(f, a, b) f(a, b), f(a, b + 1), f(a, b + 2), f(a, b + 3), f(a, b + 4), f(a, b + 5), f(a, b + 6), f(a, b + 7)
#define LANE(l) EIGHT(PLACE, l, 0), EIGHT(PLACE, l, 8), EIGHT(PLACE, l, 16), EIGHT(PLACE, l, 24)
#define HALF_ROW(r, c) EIGHT(HOLDER, r, c), EIGHT(HOLDER, r, c + 8), EIGHT(HOLDER, r, c + 16), EIGHT(HOLDER, r, c + 24)
#define ROW(r) HALF_ROW(r, 0), HALF_ROW(r, 32)

static const uint16_t PLACES[LANES * TABLE_ELEMENTS] = {
    LANE(0),  LANE(1),  LANE(2),  LANE(3),  LANE(4),  LANE(5),  LANE(6),  LANE(7),  LANE(8),  LANE(9),  LANE(10),
    LANE(11), LANE(12), LANE(13), LANE(14), LANE(15), LANE(16), LANE(17), LANE(18), LANE(19), LANE(20), LANE(21),
    LANE(22), LANE(23), LANE(24), LANE(25), LANE(26), LANE(27), LANE(28), LANE(29), LANE(30), LANE(31),
};
static const uint16_t HOLDERS[TABLE_ROWS * TABLE_COLUMNS] = {
    ROW(0), ROW(1), ROW(2),  ROW(3),  ROW(4),  ROW(5),  ROW(6),  ROW(7),
    ROW(8), ROW(9), ROW(10), ROW(11), ROW(12), ROW(13), ROW(14), ROW(15),
};

uint64_t plain_c_place_by_table(uint32_t kind, uint32_t role, uint32_t lane, uint32_t element, uint32_t out[4]) {
    if (kind != TABLE_KIND || role != ROLE_A)
        return plain_c_place(kind, role, lane, element, out);
    if (lane >= LANES || element >= TABLE_ELEMENTS)
        return refusal(WZ_OUTSIDE, 0);
    uint32_t entry = PLACES[lane * TABLE_ELEMENTS + element];
    out[0] = entry / TABLE_COLUMNS;
    out[1] = entry % TABLE_COLUMNS;
    out[2] = element * TABLE_BITS / WORD_BITS;
    out[3] = element * TABLE_BITS % WORD_BITS;
    return 0;
}

uint64_t plain_c_find_by_table(uint32_t kind, uint32_t role, uint32_t row, uint32_t column, uint32_t out[2]) {
    if (kind != TABLE_KIND || role != ROLE_A)
        return plain_c_find(kind, role, row, column, out);
    if (row >= TABLE_ROWS || column >= TABLE_COLUMNS)
        return refusal(WZ_OUTSIDE, 0);
    uint32_t entry = HOLDERS[row * TABLE_COLUMNS + column];
    out[0] = entry / TABLE_ELEMENTS;
    out[1] = entry % TABLE_ELEMENTS;
    return 0;
}

uint64_t plain_c_unpack(uint32_t kind, uint32_t role, const uint32_t *words, size_t n, uint64_t *matrix, size_t m) {
    uint64_t refused = judge_role(kind, role);
    if (refused)
        return refused;
    struct layout l = layout_of(kind, role);
    if (n != LANES * l.words)
        return refusal(WZ_WRONG_LENGTH, 0);
    if (m != l.rows * l.columns)
        return refusal(WZ_WRONG_LENGTH, 1);
    for (size_t lane = 0; lane < LANES; lane++)
        for (size_t group = 0; group < l.groups; group++)
            for (size_t i = 0; i < l.side; i++)
                matrix[index_of(&l, lane, group, i)] = get_element(words + lane * l.words, l.bits, group * l.side + i);
    return 0;
}

static size_t first_too_wide(const uint64_t *matrix, size_t m, size_t bits) {
    size_t at = 0;
    if (bits == 64)
        return m;
    while (at < m && matrix[at] >> bits == 0)
        at++;
    return at;
}

uint64_t plain_c_pack(uint32_t kind, uint32_t role, const uint64_t *matrix, size_t m, uint32_t *words, size_t n) {
    uint64_t refused = judge_role(kind, role);
    if (refused)
        return refused;
    struct layout l = layout_of(kind, role);
    if (m != l.rows * l.columns)
        return refusal(WZ_WRONG_LENGTH, 0);
    if (n != LANES * l.words)
        return refusal(WZ_WRONG_LENGTH, 1);
    size_t wide = first_too_wide(matrix, m, l.bits);
    if (wide < m)
        return refusal(WZ_TOO_WIDE, (uint32_t)wide);
    memset(words, 0, n * sizeof *words);
    for (size_t lane = 0; lane < LANES; lane++)
        for (size_t group = 0; group < l.groups; group++)
            for (size_t i = 0; i < l.side; i++)
                put_element(words + lane * l.words, l.bits, group * l.side + i, matrix[index_of(&l, lane, group, i)]);
    return 0;
}

static int32_t number_of(uint32_t pattern, size_t bits, uint32_t is_unsigned) {
    if (is_unsigned || pattern >> (bits - 1) == 0)
        return (int32_t)pattern;
    return (int32_t)pattern - (1 << bits);
}

/* The numbers of A or B, row-major. */
static void numbers(size_t kind, size_t role, uint32_t is_unsigned, const uint32_t *words, int32_t *matrix) {
    struct layout l = layout_of(kind, role);
    for (size_t lane = 0; lane < LANES; lane++)
        for (size_t group = 0; group < l.groups; group++)
            for (size_t i = 0; i < l.side; i++) {
                uint32_t pattern = low_bits(words[lane * l.words + group] >> i * l.bits, l.bits);
                matrix[index_of(&l, lane, group, i)] = number_of(pattern, l.bits, is_unsigned);
            }
}

static uint32_t limited(int64_t total, uint32_t mode) {
    if (mode == 1 && total > INT32_MAX)
        total = INT32_MAX;
    if (mode == 1 && total < INT32_MIN)
        total = INT32_MIN;
    return (uint32_t)total;
}

/* d may be c: a word of D needs no other word of C. Where marks is not null, a word that was clamped sets its mark. */
static void integer_step(uint32_t kind, uint32_t signs, uint32_t mode, const uint32_t *a, const uint32_t *b, const uint32_t *c,
                         uint32_t *d, uint32_t *marks) {
    size_t m = KINDS[kind - 1].m, k = KINDS[kind - 1].k;
    struct layout l = layout_of(kind, ROLE_C);
    int32_t left[MAX_M * MAX_K], right[MAX_K * N], products[MAX_M * N] = {0};
    numbers(kind, ROLE_A, signs & 1, a, left);
    numbers(kind, ROLE_B, signs >> 1, b, right);
    for (size_t row = 0; row < m; row++)
        for (size_t at = 0; at < k; at++)
            for (size_t column = 0; column < N; column++)
                products[row * N + column] += left[row * k + at] * right[at * N + column];
    for (size_t lane = 0; lane < LANES; lane++)
        for (size_t group = 0; group < l.groups; group++)
            for (size_t i = 0; i < l.side; i++) {
                size_t word = lane * l.words + group * l.side + i;
                int64_t total = (int64_t)(int32_t)c[word] + products[index_of(&l, lane, group, i)];
                d[word] = limited(total, mode);
                if (marks && (total < INT32_MIN || total > INT32_MAX))
                    marks[word / WORD_BITS] |= 1u << word % WORD_BITS;
            }
}

static uint32_t ones_in(uint32_t mode, uint32_t x, uint32_t y) {
    return (uint32_t)__builtin_popcount(mode == 0 ? x ^ y : x & y);
}

/* Kind 1: a quad's words are a row of A, or a column of B. */
static void short_one_bit_step(uint32_t mode, const uint32_t *a, const uint32_t *b, const uint32_t *c, uint32_t *d) {
    struct layout l = layout_of(1, ROLE_C);
    for (size_t lane = 0; lane < LANES; lane++)
        for (size_t i = 0; i < l.words; i++) {
            struct place at = place_of(&l, lane, 0, i);
            const uint32_t *left = a + at.row * QUAD, *right = b + at.column * QUAD;
            uint32_t ones = 0;
            for (size_t t = 0; t < QUAD; t++)
                ones += ones_in(mode, left[t], right[t]);
            d[lane * l.words + i] = c[lane * l.words + i] + ones;
        }
}

/* Kinds 13 and 14: a lane has a word of A for each span of 128 columns and each half of its rows, and one of B for each span. */
static void long_one_bit_step(uint32_t kind, uint32_t mode, const uint32_t *a, const uint32_t *b, const uint32_t *c, uint32_t *d) {
    struct layout of_a = layout_of(kind, ROLE_A), of_b = layout_of(kind, ROLE_B), l = layout_of(kind, ROLE_C);
    for (size_t lane = 0; lane < LANES; lane++)
        for (size_t group = 0; group < l.groups; group++)
            for (size_t i = 0; i < l.side; i++) {
                struct place at = place_of(&l, lane, group, i);
                size_t word = lane * l.words + group * l.side + i;
                uint32_t ones = 0;
                for (size_t span = 0; span < of_b.groups; span++)
                    for (size_t t = 0; t < QUAD; t++)
                        ones += ones_in(mode, a[(at.row % HALF * QUAD + t) * of_a.words + span * of_a.halves + at.row / HALF],
                                        b[(at.column * QUAD + t) * of_b.words + span]);
                d[word] = c[word] + ones;
            }
}

static int is_one_bit(uint32_t kind) {
    return KINDS[kind - 1].bits == 1;
}

static int is_arithmetic(uint32_t kind) {
    return kind <= 5 || kind >= 11;
}

static void work(uint32_t kind, uint32_t signs, uint32_t mode, const uint32_t *a, const uint32_t *b, const uint32_t *c, uint32_t *d,
                 uint32_t *marks) {
    if (kind == 1)
        short_one_bit_step(mode, a, b, c, d);
    else if (is_one_bit(kind))
        long_one_bit_step(kind, mode, a, b, c, d);
    else
        integer_step(kind, signs, mode, a, b, c, d, marks);
}

static int bad_selectors(uint32_t kind, uint32_t signs, uint32_t mode) {
    return signs > 3 || mode > 1 || (is_one_bit(kind) && signs != 0);
}

static uint64_t judge_selectors(uint32_t kind, uint32_t signs, uint32_t mode) {
    if (kind < 1 || kind > KINDS_COUNT)
        return refusal(WZ_UNKNOWN_KIND, 0);
    if (!is_arithmetic(kind))
        return refusal(WZ_NOT_ARITHMETIC, 0);
    if (bad_selectors(kind, signs, mode))
        return refusal(WZ_BAD_SELECTORS, 0);
    return 0;
}

static size_t words_of(size_t kind, size_t role) {
    return LANES * KINDS[kind - 1].words[role];
}

uint64_t plain_c_step(uint32_t kind, uint32_t signs, uint32_t mode, const uint32_t *a, size_t na, const uint32_t *b, size_t nb,
                      const uint32_t *c, size_t nc, uint32_t *d, size_t nd) {
    uint64_t refused = judge_selectors(kind, signs, mode);
    if (refused)
        return refused;
    if (na != words_of(kind, ROLE_A))
        return refusal(WZ_WRONG_LENGTH, 0);
    if (nb != words_of(kind, ROLE_B))
        return refusal(WZ_WRONG_LENGTH, 1);
    if (nc != words_of(kind, ROLE_C))
        return refusal(WZ_WRONG_LENGTH, 2);
    if (nd != words_of(kind, ROLE_C))
        return refusal(WZ_WRONG_LENGTH, 3);
    work(kind, signs, mode, a, b, c, d, NULL);
    return 0;
}

/* A run's words, in the order of the interface. */
enum { RUN_KIND, RUN_SIGNS, RUN_MODE, RUN_BLOCKS, RUN_SUMS };
enum { MARK_WORDS = 4, RUN_MARKS = WZ_RUN_WORDS - MARK_WORDS };

static int can_clamp(const uint32_t *run) {
    return run[RUN_MODE] == 1 && !is_one_bit(run[RUN_KIND]);
}

/* Past the last sum, or in a run that cannot clamp. */
static int stray_mark(const uint32_t *run) {
    size_t first = can_clamp(run) ? words_of(run[RUN_KIND], ROLE_C) / WORD_BITS : 0;
    uint32_t stray = 0;
    for (size_t at = first; at < MARK_WORDS; at++)
        stray |= run[RUN_MARKS + at];
    return stray != 0;
}

static int bad_run(const uint32_t *run) {
    uint32_t kind = run[RUN_KIND];
    return kind < 1 || kind > KINDS_COUNT || !is_arithmetic(kind) || bad_selectors(kind, run[RUN_SIGNS], run[RUN_MODE]) ||
           run[RUN_BLOCKS] > WZ_MAX_BLOCKS || stray_mark(run);
}

uint64_t plain_c_open(uint32_t kind, uint32_t signs, uint32_t mode, const uint32_t *c, size_t nc, uint32_t run[WZ_RUN_WORDS]) {
    uint64_t refused = judge_selectors(kind, signs, mode);
    memset(run, 0, WZ_RUN_WORDS * sizeof *run);
    if (refused)
        return refused;
    if (nc != words_of(kind, ROLE_C))
        return refusal(WZ_WRONG_LENGTH, 0);
    run[RUN_KIND] = kind;
    run[RUN_SIGNS] = signs;
    run[RUN_MODE] = mode;
    memcpy(run + RUN_SUMS, c, nc * sizeof *c);
    return 0;
}

uint64_t plain_c_feed(uint32_t run[WZ_RUN_WORDS], const uint32_t *a, size_t na, const uint32_t *b, size_t nb) {
    uint32_t kind = run[RUN_KIND], *sums = run + RUN_SUMS;
    if (bad_run(run))
        return refusal(WZ_BAD_RUN, 0);
    if (run[RUN_BLOCKS] == WZ_MAX_BLOCKS)
        return refusal(WZ_RUN_FULL, 0);
    if (na != words_of(kind, ROLE_A))
        return refusal(WZ_WRONG_LENGTH, 0);
    if (nb != words_of(kind, ROLE_B))
        return refusal(WZ_WRONG_LENGTH, 1);
    work(kind, run[RUN_SIGNS], run[RUN_MODE], a, b, sums, sums, can_clamp(run) ? run + RUN_MARKS : NULL);
    run[RUN_BLOCKS]++;
    return 0;
}

uint64_t plain_c_read(const uint32_t run[WZ_RUN_WORDS], uint32_t *d, size_t nd) {
    if (bad_run(run))
        return refusal(WZ_BAD_RUN, 0);
    if (nd != words_of(run[RUN_KIND], ROLE_C))
        return refusal(WZ_WRONG_LENGTH, 0);
    memcpy(d, run + RUN_SUMS, nd * sizeof *d);
    return 0;
}

uint64_t plain_c_marks(const uint32_t run[WZ_RUN_WORDS], uint32_t *marks, size_t n) {
    if (bad_run(run))
        return refusal(WZ_BAD_RUN, 0);
    if (n != MARK_WORDS)
        return refusal(WZ_WRONG_LENGTH, 0);
    memcpy(marks, run + RUN_MARKS, n * sizeof *marks);
    return 0;
}

uint64_t plain_c_scale(uint32_t size, uint32_t side, uint32_t byte_id, uint32_t thread_id, const uint32_t *metadata, size_t nm,
                       int32_t *out, size_t no) {
    if (size != 1 && size != 2 && size != 4)
        return refusal(WZ_BAD_SCALE, 0);
    if (side > 1)
        return refusal(WZ_BAD_SCALE, 1);
    if (byte_id > 3 || byte_id % size != 0)
        return refusal(WZ_BAD_SCALE, 2);
    if (thread_id > (side == 0 ? 1u : 3u))
        return refusal(WZ_BAD_SCALE, 3);
    if (nm != LANES)
        return refusal(WZ_WRONG_LENGTH, 0);
    if (no != (side == 0 ? 16 : 8) * size)
        return refusal(WZ_WRONG_LENGTH, 1);
    uint8_t chosen[LANES / 2 * 4];
    size_t n = 0;
    for (size_t lane = 0; lane < LANES; lane++) {
        size_t t = lane % QUAD;
        if ((side == 0 ? t / 2 : t) != thread_id)
            continue;
        for (size_t byte = byte_id; byte < byte_id + size; byte++)
            chosen[n++] = metadata[lane] >> 8 * byte & 0xff;
    }
    const uint8_t *nan = memchr(chosen, 0xff, n);
    if (nan)
        return refusal(WZ_SCALE_NAN, nan - chosen);
    for (size_t i = 0; i < n; i++)
        out[i] = (int32_t)chosen[i] - 127;
    return 0;
}
