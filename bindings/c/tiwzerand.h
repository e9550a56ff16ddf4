/*
 * tiwzerand.h: gate fusion, proved. Link with libtiwzerand.a, which `bindings/archive` writes to target/staticlib.
 *
 * A slice is a pointer and a number of elements. Everything is lent for the call alone: nothing is allocated and nothing is kept.
 * Slices of one call do not overlap, unless none of them is written. An empty slice may have any pointer, also NULL.
 *
 * Every function returns 0, or a number of enum tiwzerand_refusal, whatever the numbers handed in are. An answer's values go to the
 * front of `values`, as far as it reaches. A refusal leaves all that was lent as it was; reading alone puts the offset at values[0].
 * A store keeps what an answer does not fill.
 *
 * Fusing takes up to 0.7 MB of stack and filling back 0.3 MB, so call them in a thread that has 1 MB. There is no global state: threads may
 * call at the same time.
 */
#ifndef TIWZERAND_H
#define TIWZERAND_H

#include <stddef.h>
#include <stdint.h>

#ifdef __cplusplus
extern "C" {
#endif

enum tiwzerand_refusal {
    TIWZERAND_DONE = 0,
    TIWZERAND_CUT = 1,     /* under 3 bytes left where a field must start, or payload beyond the input */
    TIWZERAND_TAG = 2,     /* first tag is not 1, or a later one is not 2 to 7 */
    TIWZERAND_SHAPE = 3,   /* payload not exactly its parts, or bytes after the end; in memory an operand past the end of its store */
    TIWZERAND_SHIFT = 4,   /* invalid shift number */
    TIWZERAND_WIRE = 5,    /* wire not below the wire count */
    TIWZERAND_FULL = 6,    /* wire count 0, or a limit below exceeded */
    TIWZERAND_SLOTS = 7,   /* slots neither 1 nor 2 */
    TIWZERAND_TWICE = 8,   /* a wire defined twice */
    TIWZERAND_EMPTY = 9,   /* a definition with no term */
    TIWZERAND_DOUBLE = 10, /* outer shift not an identity in a definition's term, or in any term naming a defined wire */
    TIWZERAND_CIRCLE = 11, /* a definition reaches itself */
    TIWZERAND_ROOM = 12,   /* a lent store too short for the whole result, or over 16,384 terms in the result store */
    TIWZERAND_SIZE = 13,   /* assignment or wire flags not as long as the wire count */
    TIWZERAND_WIDE = 14    /* a record to write is over 65,535 payload bytes */
};

/* Stores as long as these have room for every system that is accepted. */
enum {
    TIWZERAND_MAX_WIRES = 4096,
    TIWZERAND_MAX_DEFINITIONS = 1024,
    TIWZERAND_MAX_OTHERS = 1024,                          /* And, Imul, Bmul and Zero together */
    TIWZERAND_MAX_TERMS = 8192,                           /* read, fused or filled back; written or evaluated 24,576 in both stores */
    TIWZERAND_MAX_NEW_TERMS = 16384,                      /* written by fusing */
    TIWZERAND_AND_OPERANDS = 3,                           /* a, b, c */
    TIWZERAND_IMUL_OPERANDS = 4,                          /* a, b, hi, lo */
    TIWZERAND_BMUL_OPERANDS = 6,                          /* a_lo, a_hi, b_lo, b_hi, c_lo, c_hi */
    TIWZERAND_ZERO_OPERANDS = 1,                          /* val */
    TIWZERAND_MAX_OPERANDS = 7168,                        /* six of each other constraint, and one right side a definition */
    TIWZERAND_MAX_FILE = 169992,                          /* bytes of the longest file that is written */
    TIWZERAND_MAX_VALUES = 7                              /* of any answer */
};

/* Variants of a shift. Width 64 for the first four, 32 for the others; an amount is below the width. */
enum tiwzerand_variant {
    TIWZERAND_SLL = 0,
    TIWZERAND_SLR = 1,
    TIWZERAND_SAR = 2,
    TIWZERAND_ROTR = 3,
    TIWZERAND_SLL32 = 4,
    TIWZERAND_SRL32 = 5,
    TIWZERAND_SRA32 = 6,
    TIWZERAND_ROTR32 = 7
};

/* The number of a shift. 0, sll by 0, leaves a word as it is. */
static inline uint16_t tiwzerand_shift(enum tiwzerand_variant variant, unsigned amount)
{
    return (uint16_t)(64u * (unsigned)variant + amount);
}

/* A term as it stands in a store: a wire, its inner shift, which is applied first, and its outer shift. */
static inline uint64_t tiwzerand_term(uint16_t wire, uint16_t inner, uint16_t outer)
{
    return (uint64_t)wire | (uint64_t)inner << 16 | (uint64_t)outer << 32;
}

static inline uint16_t tiwzerand_term_wire(uint64_t term)
{
    return (uint16_t)(term & 0xffff);
}

static inline uint16_t tiwzerand_term_inner(uint64_t term)
{
    return (uint16_t)(term >> 16 & 0xffff);
}

static inline uint16_t tiwzerand_term_outer(uint64_t term)
{
    return (uint16_t)(term >> 32 & 0xffff);
}

/* An operand as it stands in a list: `len` terms from `start` on, in the old store, or in the new one, where fusing writes.
 * Systems to read, fuse and fill back have all operands in the old store. */
static inline uint64_t tiwzerand_operand(uint32_t start, uint32_t len, int in_new)
{
    return (uint64_t)len | (uint64_t)(start & 0x7fffffffu) << 32 | (uint64_t)(in_new != 0) << 63;
}

static inline uint32_t tiwzerand_operand_start(uint64_t operand)
{
    return (uint32_t)(operand >> 32 & 0x7fffffffu);
}

static inline uint32_t tiwzerand_operand_len(uint64_t operand)
{
    return (uint32_t)(operand & 0xffffffffu);
}

static inline int tiwzerand_operand_in_new(uint64_t operand)
{
    return (int)(operand >> 63);
}

/* The name of what a function returned. */
static inline const char *tiwzerand_name(unsigned number)
{
    static const char *const names[15] = {"done", "CUT", "TAG", "SHAPE", "SHIFT", "WIRE", "FULL", "SLOTS", "TWICE", "EMPTY", "DOUBLE",
                                          "CIRCLE", "ROOM", "SIZE", "WIDE"};
    return number < 15 ? names[number] : "?";
}

/* What two shifts come to, the inner one applied first. SHIFT, or values: 0 and the number of the one shift that does the same;
 * 1 where they clear every word; 2 where both are needed. */
uint8_t tiwzerand_compose(uint64_t inner, uint64_t outer, uint64_t *values, size_t values_len);

/* Folds one more shift inside two. SHIFT, or values: 0 and the numbers of the new inner and outer shift; 1 where the three clear every
 * word; 2 where `slots` shifts are not enough. 0 slots answer as 1, 3 and more as 2. */
uint8_t tiwzerand_push_inner(uint64_t inner, uint64_t outer, uint64_t shift, uint64_t slots, uint64_t *values, size_t values_len);

/* Reads a house file into the stores. CUT to FULL with the offset at values[0], or ROOM with the input's length there; or values: wires,
 * Ands, Imuls, Bmuls, Zeros, definitions, terms. A definition is a destination wire and its right side, at one index of `dsts` and `rhss`. */
uint8_t tiwzerand_read(const uint8_t *input, size_t input_len, uint64_t *terms, size_t terms_len, uint64_t *ands, size_t ands_len,
                       uint64_t *imuls, size_t imuls_len, uint64_t *bmuls, size_t bmuls_len, uint64_t *zeros, size_t zeros_len,
                       uint16_t *dsts, size_t dsts_len, uint64_t *rhss, size_t rhss_len, uint64_t *values, size_t values_len);

/* Fuses the system in place, with 1 or 2 slots a term. SHAPE to ROOM; or the patched lists in the same stores, their new terms in
 * `new_terms`, a flag a wire (1: committed) in `flags`, and values: definitions gone, stranded, committed; terms written; wires kept. The
 * four lists keep their lengths; there are then stranded + committed definitions. */
uint8_t tiwzerand_fuse(const uint64_t *old_terms, size_t old_len, uint64_t *new_terms, size_t new_len, uint64_t *ands, size_t ands_len,
                       uint64_t *imuls, size_t imuls_len, uint64_t *bmuls, size_t bmuls_len, uint64_t *zeros, size_t zeros_len,
                       uint16_t *dsts, size_t dsts_len, uint64_t *rhss, size_t rhss_len, uint8_t *flags, size_t flags_len,
                       size_t wires, size_t n_ands, size_t n_imuls, size_t n_bmuls, size_t n_zeros, size_t n_linears,
                       uint64_t slots, uint64_t *values, size_t values_len);

/* Writes the system as a house file to `out`. SHAPE to FULL, WIDE or ROOM; or values: its length. Before fusing `new_terms` is empty. */
uint8_t tiwzerand_write(const uint64_t *old_terms, size_t old_len, const uint64_t *new_terms, size_t new_len,
                        const uint64_t *ands, size_t ands_len, const uint64_t *imuls, size_t imuls_len,
                        const uint64_t *bmuls, size_t bmuls_len, const uint64_t *zeros, size_t zeros_len,
                        const uint16_t *dsts, size_t dsts_len, const uint64_t *rhss, size_t rhss_len,
                        size_t wires, size_t n_ands, size_t n_imuls, size_t n_bmuls, size_t n_zeros, size_t n_linears,
                        uint8_t *out, size_t out_len, uint64_t *values, size_t values_len);

/* Writes the words of all operands to `out`, in the order of the file, under an assignment of a word a wire. SHAPE to FULL, SIZE or ROOM; or
 * values: how many words. */
uint8_t tiwzerand_evaluate(const uint64_t *old_terms, size_t old_len, const uint64_t *new_terms, size_t new_len,
                           const uint64_t *ands, size_t ands_len, const uint64_t *imuls, size_t imuls_len,
                           const uint64_t *bmuls, size_t bmuls_len, const uint64_t *zeros, size_t zeros_len,
                           const uint16_t *dsts, size_t dsts_len, const uint64_t *rhss, size_t rhss_len,
                           size_t wires, size_t n_ands, size_t n_imuls, size_t n_bmuls, size_t n_zeros, size_t n_linears,
                           const uint64_t *assignment, size_t assignment_len, uint64_t *out, size_t out_len,
                           uint64_t *values, size_t values_len);

/* Gives each defined wire that is not committed the word of its definition. The lists are those from before fusing: keep a copy of them.
 * SHAPE to FULL, TWICE to CIRCLE or SIZE, and the assignment as it was. */
uint8_t tiwzerand_fill_back(const uint64_t *old_terms, size_t old_len, const uint64_t *ands, size_t ands_len,
                            const uint64_t *imuls, size_t imuls_len, const uint64_t *bmuls, size_t bmuls_len,
                            const uint64_t *zeros, size_t zeros_len, const uint16_t *dsts, size_t dsts_len,
                            const uint64_t *rhss, size_t rhss_len,
                            size_t wires, size_t n_ands, size_t n_imuls, size_t n_bmuls, size_t n_zeros, size_t n_linears,
                            const uint8_t *flags, size_t flags_len, uint64_t *assignment, size_t assignment_len);

/* A definition as a record: its right side, as an operand, and its destination wire. 16 bytes, `rhs` at 0 and `dst` at 8; what stands in the
 * other six does not count. */
typedef struct {
    uint64_t rhs;
    uint16_t dst;
} tiwzerand_definition;

/* The last five functions, with one array of records in the place of `dsts` and `rhss`. Any number of records may be lent. Each answers as
 * its number form, and leaves the same in all that was lent. */

/* `tiwzerand_read` to records. */
uint8_t tiwzerand_read_records(const uint8_t *input, size_t input_len, uint64_t *terms, size_t terms_len, uint64_t *ands, size_t ands_len,
                               uint64_t *imuls, size_t imuls_len, uint64_t *bmuls, size_t bmuls_len, uint64_t *zeros, size_t zeros_len,
                               tiwzerand_definition *defs, size_t defs_len, uint64_t *values, size_t values_len);

/* `tiwzerand_fuse` over records. */
uint8_t tiwzerand_fuse_records(const uint64_t *old_terms, size_t old_len, uint64_t *new_terms, size_t new_len,
                               uint64_t *ands, size_t ands_len, uint64_t *imuls, size_t imuls_len,
                               uint64_t *bmuls, size_t bmuls_len, uint64_t *zeros, size_t zeros_len,
                               tiwzerand_definition *defs, size_t defs_len, uint8_t *flags, size_t flags_len,
                               size_t wires, size_t n_ands, size_t n_imuls, size_t n_bmuls, size_t n_zeros, size_t n_linears,
                               uint64_t slots, uint64_t *values, size_t values_len);

/* `tiwzerand_write` from records. */
uint8_t tiwzerand_write_records(const uint64_t *old_terms, size_t old_len, const uint64_t *new_terms, size_t new_len,
                                const uint64_t *ands, size_t ands_len, const uint64_t *imuls, size_t imuls_len,
                                const uint64_t *bmuls, size_t bmuls_len, const uint64_t *zeros, size_t zeros_len,
                                const tiwzerand_definition *defs, size_t defs_len,
                                size_t wires, size_t n_ands, size_t n_imuls, size_t n_bmuls, size_t n_zeros, size_t n_linears,
                                uint8_t *out, size_t out_len, uint64_t *values, size_t values_len);

/* `tiwzerand_evaluate` over records. */
uint8_t tiwzerand_evaluate_records(const uint64_t *old_terms, size_t old_len, const uint64_t *new_terms, size_t new_len,
                                   const uint64_t *ands, size_t ands_len, const uint64_t *imuls, size_t imuls_len,
                                   const uint64_t *bmuls, size_t bmuls_len, const uint64_t *zeros, size_t zeros_len,
                                   const tiwzerand_definition *defs, size_t defs_len,
                                   size_t wires, size_t n_ands, size_t n_imuls, size_t n_bmuls, size_t n_zeros, size_t n_linears,
                                   const uint64_t *assignment, size_t assignment_len, uint64_t *out, size_t out_len,
                                   uint64_t *values, size_t values_len);

/* `tiwzerand_fill_back` over records. */
uint8_t tiwzerand_fill_back_records(const uint64_t *old_terms, size_t old_len, const uint64_t *ands, size_t ands_len,
                                    const uint64_t *imuls, size_t imuls_len, const uint64_t *bmuls, size_t bmuls_len,
                                    const uint64_t *zeros, size_t zeros_len, const tiwzerand_definition *defs, size_t defs_len,
                                    size_t wires, size_t n_ands, size_t n_imuls, size_t n_bmuls, size_t n_zeros, size_t n_linears,
                                    const uint8_t *flags, size_t flags_len, uint64_t *assignment, size_t assignment_len);

#ifdef __cplusplus
}
#endif

#endif
