/* Wazimroot: the proved reference for warp-level mma fragments, for programs in C and C++.

   Link crates/wazimroot/out/libwazimroot.a, for x86-64 Linux. Every call answers for every value of its numbers and every length of its
   buffers. The answer is 0 where the call was accepted; otherwise the refusal's number is in the low 32 bits and its detail in the high 32
   (WZ_NUMBER, WZ_DETAIL). A refused call writes nothing, but for wz_open.

   What the caller must keep, since no proof reaches into C:
   - each pointer with a length leads to at least so many elements, and each fixed array to as many as its brackets say. No pointer is null;
     one with length 0 need lead to nothing, but is not null and is aligned for its type;
   - a buffer that is written (the one without const) overlaps no other buffer of the same call, and nobody else reads or writes it
     meanwhile. Buffers that are only read may be the same.

   The calls keep nothing between them, and take no memory but the stack.

   kind 1 to 14 and role 0 A, 1 B, 2 C or D are the numbers of the rules; so are the selectors: signs 0 to 3 (bit 0 for an unsigned A, bit
   1 for an unsigned B), mode 0 wraps and 1 clamps (for the one-bit kinds 1, 13 and 14: signs 0, mode 0 xor, 1 and). */
#ifndef WAZIMROOT_H
#define WAZIMROOT_H

#include <stddef.h>
#include <stdint.h>

#ifdef __cplusplus
extern "C" {
#endif

/* The number and the detail of an answer; both are 0 where the call was accepted. */
#define WZ_NUMBER(answer) ((uint32_t)((answer) & 0xffffffffu))
#define WZ_DETAIL(answer) ((uint32_t)((answer) >> 32))

enum {
    WZ_UNKNOWN_KIND = 1,
    WZ_UNKNOWN_ROLE = 2,
    WZ_NOT_ARITHMETIC = 3, /* kinds 6 to 10 have no step and no run */
    WZ_BAD_SELECTORS = 4,
    WZ_WRONG_LENGTH = 5, /* detail: which buffer, counted from 0 in the call's order */
    WZ_OUTSIDE = 6,
    WZ_TOO_WIDE = 7, /* detail: index of the first entry that does not fit */
    WZ_BAD_SCALE = 8, /* detail: which selector, counted from 0 */
    WZ_RUN_FULL = 9,
    WZ_BAD_RUN = 10, /* by its kind, selectors or number, or a mark past the last sum or in a run that cannot clamp */
    WZ_UNUSED_NOT_ZERO = 11, /* a reserved byte or an unused tail of a step record: the replay program prints it, no call gives it */
    WZ_SCALE_NAN = 12 /* a chosen byte is 255; detail: index of the first in the output */
};

/* Words of a run: kind, signs, mode, number of accepted blocks, then 128 sums in D's warp buffer order, then 4 words of marks: mark j is
   bit j mod 32 of word j div 32 and belongs to sum word j. */
#define WZ_RUN_WORDS 136
#define WZ_MAX_BLOCKS 4096

/* Where an element of a lane sits: out is its row, its column, its word within the lane, its lowest bit in that word; of a 64-bit element
   the low word and bit 0. */
uint64_t wz_place(uint32_t kind, uint32_t role, uint32_t lane, uint32_t element, uint32_t out[4]);

/* Who holds a place: out is the lane, the element. */
uint64_t wz_find(uint32_t kind, uint32_t role, uint32_t row, uint32_t column, uint32_t out[2]);

/* Lane words (lane 0's, then lane 1's, ...) to the row-major matrix of bit patterns. */
uint64_t wz_unpack(uint32_t kind, uint32_t role, const uint32_t *words, size_t n, uint64_t *matrix, size_t m);

/* A row-major matrix of bit patterns to lane words. */
uint64_t wz_pack(uint32_t kind, uint32_t role, const uint64_t *matrix, size_t m, uint32_t *words, size_t n);

/* One step: D is C plus A times B, on warp buffers. Kinds 1 to 5 and 11 to 14. */
uint64_t wz_step(uint32_t kind, uint32_t signs, uint32_t mode, const uint32_t *a, size_t na, const uint32_t *b, size_t nb,
                 const uint32_t *c, size_t nc, uint32_t *d, size_t nd);

/* One step with no selectors: signs 0, mode 0. */
uint64_t wz_plain_step(uint32_t kind, const uint32_t *a, size_t na, const uint32_t *b, size_t nb, const uint32_t *c, size_t nc,
                       uint32_t *d, size_t nd);

/* A newly opened run, whose sums are C's words, none of them marked. A refused opening writes a run that is 0 throughout. */
uint64_t wz_open(uint32_t kind, uint32_t signs, uint32_t mode, const uint32_t *c, size_t nc, uint32_t run[WZ_RUN_WORDS]);

/* The run with one block more. A sum that it clamps is marked from then on; one that reaches a limit exactly is not clamped. A refused
   feed leaves the run as it was. */
uint64_t wz_feed(uint32_t run[WZ_RUN_WORDS], const uint32_t *a, size_t na, const uint32_t *b, size_t nb);

/* The used sums of a run, into D. */
uint64_t wz_read(const uint32_t run[WZ_RUN_WORDS], uint32_t *d, size_t nd);

/* The marks of a run, 4 words, all 0 in a run that cannot clamp: one with mode 0 or of a one-bit kind. */
uint64_t wz_marks(const uint32_t run[WZ_RUN_WORDS], uint32_t *marks, size_t n);

/* The exponents of the chosen scale bytes, -127 to 127: lanes ascending, low byte first, each byte less 127. 255 is not a number: in a
   chosen byte it is refused, and in another it does not matter. */
uint64_t wz_scale(uint32_t size, uint32_t side, uint32_t byte_id, uint32_t thread_id, const uint32_t *metadata, size_t nm, int32_t *out,
                  size_t no);

/* A soft template's record of 256 bytes to the lane words of B of kind 3. */
uint64_t wz_template_read(const uint8_t *record, size_t nr, uint32_t *words, size_t nw);

/* Those lane words to the record. */
uint64_t wz_template_write(const uint32_t *words, size_t nw, uint8_t *record, size_t nr);

#ifdef __cplusplus
}
#endif

#endif
