/* Calls each record form of tiwzerand.h beside its number form, on random systems, good and damaged, some with more than 1,024 definitions.
 * Both must return the same, and leave the same in all that was lent. Prints how many calls agreed; a difference ends it with 1. */
#include <stdio.h>
#include <stdlib.h>
#include <string.h>

#include "tiwzerand.h"

enum {
    CASES = 20000,
    PAST = 4, /* so many elements after a lent slice are compared too */
    DEFINITIONS = 3100,
    OPERANDS = 24,
    TERMS = 3 * DEFINITIONS + 40,
    WIRES = TIWZERAND_MAX_WIRES + 40,
    WORDS = DEFINITIONS + 80,
    BYTES = 64 * DEFINITIONS + 4000
};

/* What is lent to be written, once for each form. */
struct lent {
    uint64_t new_terms[TIWZERAND_MAX_NEW_TERMS + PAST], ands[OPERANDS], imuls[OPERANDS], bmuls[OPERANDS], zeros[OPERANDS];
    uint64_t assignment[WIRES], words[WORDS], values[TIWZERAND_MAX_VALUES + PAST];
    uint8_t flags[WIRES], file[BYTES];
};

enum { FILL_BACK, FUSE, WRITE, EVALUATE, READ, FORMS };
static const char *const names[FORMS] = {"fill_back", "fuse", "write", "evaluate", "read"};

static struct lent n, r; /* of the number form and of the record form */
static uint64_t terms[TERMS], rhss[DEFINITIONS];
static uint16_t dsts[DEFINITIONS];
static tiwzerand_definition defs[DEFINITIONS];

static size_t terms_len, new_len, ands_len, imuls_len, bmuls_len, zeros_len, defs_len;
static size_t flags_len, assignment_len, words_len, file_len, values_len;
static size_t wires, n_ands, n_imuls, n_bmuls, n_zeros, n_linears;
static uint64_t slots;
static unsigned cases, done[FORMS], refused[FORMS], many;

#define LISTS(s) s.ands, ands_len, s.imuls, imuls_len, s.bmuls, bmuls_len, s.zeros, zeros_len
#define NUMBERS dsts, defs_len, rhss, defs_len
#define RECORDS defs, defs_len
#define SIZES wires, n_ands, n_imuls, n_bmuls, n_zeros, n_linears
#define VALUES(s) s.values, values_len

static uint64_t any(void)
{
    static uint64_t state = 88172645463325252u;
    state ^= state << 13;
    state ^= state >> 7;
    state ^= state << 17;
    return state;
}

/* A number below the bound, or 0 where there is none. */
static size_t below(size_t bound)
{
    return bound ? (size_t)(any() >> 20) % bound : 0;
}

/* One more term, of a wire below `bound`. */
static void add_term(size_t bound)
{
    unsigned shift = (unsigned)below(8 * 32);
    uint16_t inner = below(2) ? 0 : tiwzerand_shift((enum tiwzerand_variant)(shift / 32), shift % 32);
    terms[terms_len++] = tiwzerand_term((uint16_t)below(bound), inner, 0);
}

/* So many operands, of terms anywhere in the store. */
static void fill(uint64_t *list, size_t len)
{
    for (size_t i = 0; i < len; i++) {
        size_t of = below(4);
        list[i] = tiwzerand_operand((uint32_t)below(terms_len - of + 1), (uint32_t)of, 0);
    }
}

/* A system that fuses, unless it has too many definitions: no wire has two, and each names wires below its own, so there is no circle. */
static void build(void)
{
    size_t size = below(8);
    defs_len = size == 0 ? 990 + below(60) : size == 1 ? 1025 + below(2000) : below(10);
    wires = size < 2 ? TIWZERAND_MAX_WIRES : defs_len + 1 + below(below(2) ? 6 : 200);
    n_linears = below(4) ? defs_len : below(defs_len < 1024 ? defs_len + 1 : 1024);
    slots = 1 + below(2);

    for (size_t i = 0; i < defs_len; i++) {
        size_t at = below(i + 1);
        dsts[i] = dsts[at];
        dsts[at] = (uint16_t)(wires - defs_len + i);
    }
    terms_len = 0;
    for (size_t i = 0; i < defs_len; i++) {
        size_t of = 1 + below(3);
        rhss[i] = tiwzerand_operand((uint32_t)terms_len, (uint32_t)of, 0);
        while (of-- > 0)
            add_term(dsts[i]);
    }
    for (size_t more = 3 + below(20); more > 0; more--)
        add_term(wires);

    n_ands = below(4);
    n_imuls = below(3);
    n_bmuls = below(3);
    n_zeros = below(3);
    fill(n.ands, ands_len = TIWZERAND_AND_OPERANDS * n_ands + below(3));
    fill(n.imuls, imuls_len = TIWZERAND_IMUL_OPERANDS * n_imuls + below(3));
    fill(n.bmuls, bmuls_len = TIWZERAND_BMUL_OPERANDS * n_bmuls + below(3));
    fill(n.zeros, zeros_len = TIWZERAND_ZERO_OPERANDS * n_zeros + below(3));
}

/* The other stores: most have room for the whole result, and some not. */
static void lend(void)
{
    new_len = below(8) ? 4 * terms_len : below(40);
    if (new_len > TIWZERAND_MAX_NEW_TERMS)
        new_len = TIWZERAND_MAX_NEW_TERMS;
    words_len = below(8) ? defs_len + 40 : below(40);
    file_len = below(8) ? 64 * defs_len + 2000 : below(400);
    values_len = below(4) ? TIWZERAND_MAX_VALUES : below(TIWZERAND_MAX_VALUES);
    flags_len = assignment_len = wires;
    for (size_t i = 0; i < wires; i++) {
        n.flags[i] = (uint8_t)below(2);
        n.assignment[i] = any();
    }
}

static void damage_operand(uint64_t *operand)
{
    switch (below(4)) {
    case 0:
        *operand = any();
        break;
    case 1:
        *operand = tiwzerand_operand(tiwzerand_operand_start(*operand), 0, 0);
        break;
    case 2:
        *operand = tiwzerand_operand(tiwzerand_operand_start(*operand), tiwzerand_operand_len(*operand), 1);
        break;
    default:
        *operand = tiwzerand_operand(0, 11000, 1); /* too wide to be written */
    }
}

static void damage(void)
{
    size_t term = below(terms_len), def = below(defs_len);
    size_t *const counts[] = {&n_ands, &n_imuls, &n_bmuls, &n_zeros, &n_linears};
    size_t *const lens[] = {&ands_len, &imuls_len, &bmuls_len, &zeros_len, &defs_len, &terms_len};
    size_t *const count = counts[below(5)], *const len = lens[below(6)];
    switch (below(13)) {
    case 0:
        terms[term] = below(2) ? any() : terms[term] | (uint64_t)288 << 16; /* no shift's number */
        break;
    case 1:
        terms[term] |= (uint64_t)(1 + below(63)) << 32; /* an outer shift */
        break;
    case 2:
        terms[term] = tiwzerand_term((uint16_t)below(wires), 0, 0); /* perhaps a circle */
        break;
    case 3:
        terms[term] = tiwzerand_term((uint16_t)(wires + below(40)), 0, 0);
        break;
    case 4:
        dsts[def] = (uint16_t)below(wires);
        break;
    case 5:
        dsts[def] = (uint16_t)any();
        break;
    case 6:
        damage_operand(&rhss[def]);
        break;
    case 7:
        damage_operand(below(2) ? n.ands : n.zeros);
        break;
    case 8:
        *count += 1 + below(4);
        break;
    case 9:
        *len = below(*len + 1);
        break;
    case 10:
        flags_len = below(TIWZERAND_MAX_WIRES);
        break;
    case 11:
        assignment_len = below(TIWZERAND_MAX_WIRES);
        break;
    default:
        slots = below(2) ? below(5) : any();
    }
}

/* The same to both forms. */
static void copy(void)
{
    for (size_t i = 0; i < DEFINITIONS; i++) {
        defs[i].dst = dsts[i];
        defs[i].rhs = rhss[i];
    }
    memcpy(r.ands, n.ands, sizeof n.ands);
    memcpy(r.imuls, n.imuls, sizeof n.imuls);
    memcpy(r.bmuls, n.bmuls, sizeof n.bmuls);
    memcpy(r.zeros, n.zeros, sizeof n.zeros);
    memcpy(r.flags, n.flags, sizeof n.flags);
    memcpy(r.assignment, n.assignment, sizeof n.assignment);
}

static void differ(int form, const char *where)
{
    printf("records.c: case %u: tiwzerand_%s and its record form differ in %s\n", cases, names[form], where);
    exit(1);
}

#define SAME(store, len) \
    do { \
        if (memcmp(n.store, r.store, ((len) + PAST) * sizeof n.store[0]) != 0) \
            differ(form, #store); \
    } while (0)

static void compare(int form, uint8_t of_numbers, uint8_t of_records)
{
    if (of_numbers != of_records)
        differ(form, "what they return");
    SAME(values, values_len);
    SAME(new_terms, new_len);
    SAME(ands, ands_len);
    SAME(imuls, imuls_len);
    SAME(bmuls, bmuls_len);
    SAME(zeros, zeros_len);
    SAME(flags, flags_len);
    SAME(assignment, assignment_len);
    SAME(words, words_len);
    SAME(file, file_len);
    for (size_t i = 0; i < defs_len + PAST; i++)
        if (defs[i].dst != dsts[i] || defs[i].rhs != rhss[i])
            differ(form, "a definition");
    *(of_numbers == TIWZERAND_DONE ? &done[form] : &refused[form]) += 1;
    many += defs_len > TIWZERAND_MAX_DEFINITIONS;
}

/* Reads the file that was written; some are damaged, and some have more definitions than a system may. */
static void read_back(size_t len)
{
    static const uint8_t definition[] = {6, 10, 0, 0, 0, 1, 0, 0, 0, 0, 0, 0, 0}, end[] = {7, 0, 0};
    if (below(8) == 0) {
        size_t at = below(len);
        n.file[at] = r.file[at] = (uint8_t)any();
    }
    if (defs_len > 900 && len + 150 * sizeof definition <= file_len) {
        len -= sizeof end;
        for (size_t more = below(150); more > 0; more--, len += sizeof definition) {
            memcpy(n.file + len, definition, sizeof definition);
            memcpy(r.file + len, definition, sizeof definition);
        }
        memcpy(n.file + len, end, sizeof end);
        memcpy(r.file + len, end, sizeof end);
        len += sizeof end;
    }
    if (below(4) == 0)
        defs_len = below(DEFINITIONS - PAST + 1);
    uint8_t x = tiwzerand_read(n.file, len, n.new_terms, new_len, LISTS(n), NUMBERS, VALUES(n));
    uint8_t y = tiwzerand_read_records(r.file, len, r.new_terms, new_len, LISTS(r), RECORDS, VALUES(r));
    compare(READ, x, y);
}

static void try_one(void)
{
    uint8_t x = tiwzerand_fill_back(terms, terms_len, LISTS(n), NUMBERS, SIZES, n.flags, flags_len, n.assignment, assignment_len);
    uint8_t y = tiwzerand_fill_back_records(terms, terms_len, LISTS(r), RECORDS, SIZES, r.flags, flags_len, r.assignment, assignment_len);
    compare(FILL_BACK, x, y);

    x = tiwzerand_fuse(terms, terms_len, n.new_terms, new_len, LISTS(n), NUMBERS, n.flags, flags_len, SIZES, slots, VALUES(n));
    y = tiwzerand_fuse_records(terms, terms_len, r.new_terms, new_len, LISTS(r), RECORDS, r.flags, flags_len, SIZES, slots, VALUES(r));
    compare(FUSE, x, y);
    if (x == TIWZERAND_DONE && values_len >= 3)
        n_linears = n.values[1] + n.values[2];

    x = tiwzerand_evaluate(terms, terms_len, n.new_terms, new_len, LISTS(n), NUMBERS, SIZES, n.assignment, assignment_len, n.words,
                           words_len, VALUES(n));
    y = tiwzerand_evaluate_records(terms, terms_len, r.new_terms, new_len, LISTS(r), RECORDS, SIZES, r.assignment, assignment_len, r.words,
                                   words_len, VALUES(r));
    compare(EVALUATE, x, y);

    x = tiwzerand_write(terms, terms_len, n.new_terms, new_len, LISTS(n), NUMBERS, SIZES, n.file, file_len, VALUES(n));
    y = tiwzerand_write_records(terms, terms_len, r.new_terms, new_len, LISTS(r), RECORDS, SIZES, r.file, file_len, VALUES(r));
    compare(WRITE, x, y);
    if (x == TIWZERAND_DONE && values_len >= 1)
        read_back(n.values[0]);
}

int main(void)
{
    if (sizeof(tiwzerand_definition) != 16 || offsetof(tiwzerand_definition, rhs) != 0 || offsetof(tiwzerand_definition, dst) != 8) {
        printf("records.c: a record is laid out otherwise\n");
        return 1;
    }
    for (; cases < CASES; cases++) {
        build();
        lend();
        if (below(3) == 0)
            for (size_t times = 1 + below(3); times > 0; times--)
                damage();
        copy();
        try_one();
    }
    unsigned calls = 0;
    for (int form = 0; form < FORMS; form++) {
        if (done[form] == 0 || refused[form] == 0) {
            printf("records.c: tiwzerand_%s was not tried both ways\n", names[form]);
            return 1;
        }
        calls += done[form] + refused[form];
    }
    printf("%u systems: %u calls over records agree, %u with more than 1,024\n", cases, calls, many);
    return 0;
}
