/*
 * The fuzz target: any bytes are read as a house file; what is read is written, read again, evaluated, fused at one slot and at two; what
 * is fused is written, read again and evaluated, and overwritten words are filled back. Every store is a heap block of just its length.
 *
 * It aborts where a store is changed by a refusal or filled past its answer, where a second call answers otherwise, where a written file is
 * not read back as the same lists, where an operand changes its value, where filling back does not give the words back, and where the
 * functions over records answer otherwise.
 */
#include "tiwzerand.h"
#include <stdio.h>
#include <stdlib.h>
#include <string.h>

#define CHECK(fact)                                                                                                                       \
    do {                                                                                                                                  \
        if (!(fact)) {                                                                                                                    \
            fprintf(stderr, "fuzz.c:%d: not so: %s\n", __LINE__, #fact);                                                                  \
            abort();                                                                                                                      \
        }                                                                                                                                 \
    } while (0)

enum { ANDS, IMULS, BMULS, ZEROS, RHSS, LISTS };
static const size_t operands[LISTS] = {3, 4, 6, 1, 1};

/* A heap block of cells that are not yet filled. */
enum { PATTERN = 0xA5 };

static void *blank(size_t count, size_t size)
{
    void *block = malloc(count * size);
    CHECK(block != NULL);
    memset(block, PATTERN, count * size);
    return block;
}

static int is_blank(const void *block, size_t bytes)
{
    const uint8_t *at = block;
    return bytes == 0 || (at[0] == PATTERN && memcmp(at, at + 1, bytes - 1) == 0);
}

/* Lists and how much of them counts; the terms that they name stand elsewhere. */
typedef struct {
    size_t wires, count[LISTS];
    uint64_t *list[LISTS];
    size_t len[LISTS];
    uint16_t *dsts;
    size_t dsts_len;
} system_t;

typedef struct {
    uint64_t *at;
    size_t len;
} words_t;

static words_t blank_words(size_t len)
{
    return (words_t){blank(len, sizeof(uint64_t)), len};
}

static int same_words(words_t a, words_t b)
{
    return a.len == b.len && memcmp(a.at, b.at, a.len * sizeof(uint64_t)) == 0;
}

static words_t copy_words(words_t from)
{
    words_t to = blank_words(from.len);
    memcpy(to.at, from.at, from.len * sizeof(uint64_t));
    return to;
}

static system_t blank_system(const size_t len[LISTS], size_t dsts_len)
{
    system_t s = {.dsts = blank(dsts_len, sizeof(uint16_t)), .dsts_len = dsts_len};
    for (int k = 0; k < LISTS; k++) {
        s.len[k] = len[k];
        s.list[k] = blank(len[k], sizeof(uint64_t));
    }
    return s;
}

static void free_system(system_t s)
{
    for (int k = 0; k < LISTS; k++)
        free(s.list[k]);
    free(s.dsts);
}

static int system_is_blank(const system_t *s)
{
    for (int k = 0; k < LISTS; k++)
        if (!is_blank(s->list[k], s->len[k] * sizeof(uint64_t)))
            return 0;
    return is_blank(s->dsts, s->dsts_len * sizeof(uint16_t));
}

static system_t copy_system(const system_t *from)
{
    system_t to = blank_system(from->len, from->dsts_len);
    to.wires = from->wires;
    memcpy(to.count, from->count, sizeof to.count);
    for (int k = 0; k < LISTS; k++)
        memcpy(to.list[k], from->list[k], from->len[k] * sizeof(uint64_t));
    memcpy(to.dsts, from->dsts, from->dsts_len * sizeof(uint16_t));
    return to;
}

static int same_stores(const system_t *a, const system_t *b)
{
    for (int k = 0; k < LISTS; k++)
        if (a->len[k] != b->len[k] || memcmp(a->list[k], b->list[k], a->len[k] * sizeof(uint64_t)) != 0)
            return 0;
    return a->dsts_len == b->dsts_len && memcmp(a->dsts, b->dsts, a->dsts_len * sizeof(uint16_t)) == 0;
}

static const uint64_t *terms_of(uint64_t operand, words_t old, words_t new)
{
    words_t store = tiwzerand_operand_in_new(operand) ? new : old;
    size_t start = tiwzerand_operand_start(operand), len = tiwzerand_operand_len(operand);
    CHECK(start <= store.len && len <= store.len - start);
    return store.at + start;
}

static int same_operand(uint64_t a, words_t a_old, words_t a_new, uint64_t b, words_t b_old)
{
    size_t len = tiwzerand_operand_len(a);
    if (len != tiwzerand_operand_len(b))
        return 0;
    const words_t none = {NULL, 0};
    return memcmp(terms_of(a, a_old, a_new), terms_of(b, b_old, none), len * sizeof(uint64_t)) == 0;
}

/* Whether two systems have the same lists, term by term. */
static int same_lists(const system_t *a, words_t a_old, words_t a_new, const system_t *b, words_t b_old)
{
    if (a->wires != b->wires || memcmp(a->count, b->count, sizeof a->count) != 0)
        return 0;
    for (int k = 0; k < LISTS; k++)
        for (size_t i = 0; i < a->count[k] * operands[k]; i++)
            if (!same_operand(a->list[k][i], a_old, a_new, b->list[k][i], b_old))
                return 0;
    return memcmp(a->dsts, b->dsts, a->count[RHSS] * sizeof(uint16_t)) == 0;
}

static size_t operand_count(const system_t *s)
{
    size_t sum = 0;
    for (int k = 0; k < LISTS; k++)
        sum += s->count[k] * operands[k];
    return sum;
}

static size_t term_count(const system_t *s)
{
    size_t sum = 0;
    for (int k = 0; k < LISTS; k++)
        for (size_t i = 0; i < s->count[k] * operands[k]; i++)
            sum += tiwzerand_operand_len(s->list[k][i]);
    return sum;
}

/* Numbers that follow from the input's bytes. */
static uint64_t state;

static uint64_t next(void)
{
    state += 0x9E3779B97F4A7C15u;
    uint64_t z = state;
    z = (z ^ z >> 30) * 0xBF58476D1CE4E5B9u;
    z = (z ^ z >> 27) * 0x94D049BB133111EBu;
    return z ^ z >> 31;
}

#define LISTS_OF(s)                                                                                                                       \
    (s)->list[ANDS], (s)->len[ANDS], (s)->list[IMULS], (s)->len[IMULS], (s)->list[BMULS], (s)->len[BMULS], (s)->list[ZEROS],             \
        (s)->len[ZEROS], (s)->dsts, (s)->dsts_len, (s)->list[RHSS], (s)->len[RHSS]
#define SIZES_OF(s) (s)->wires, (s)->count[ANDS], (s)->count[IMULS], (s)->count[BMULS], (s)->count[ZEROS], (s)->count[RHSS]

#define ROWS_OF(s)                                                                                                                        \
    (s)->list[ANDS], (s)->len[ANDS], (s)->list[IMULS], (s)->len[IMULS], (s)->list[BMULS], (s)->len[BMULS], (s)->list[ZEROS], (s)->len[ZEROS]

/* A system's definitions as records, in a heap block of just their number. */
static tiwzerand_definition *records_of(const system_t *s)
{
    tiwzerand_definition *defs = blank(s->dsts_len, sizeof(tiwzerand_definition));
    for (size_t i = 0; i < s->dsts_len; i++) {
        defs[i].rhs = s->list[RHSS][i];
        defs[i].dst = s->dsts[i];
    }
    return defs;
}

static int same_records(const tiwzerand_definition *defs, const system_t *s)
{
    for (size_t i = 0; i < s->dsts_len; i++)
        if (defs[i].rhs != s->list[RHSS][i] || defs[i].dst != s->dsts[i])
            return 0;
    return 1;
}

static uint8_t read_into(const uint8_t *data, size_t size, words_t terms, system_t *s, uint64_t *values, size_t values_len)
{
    return tiwzerand_read(data, size, terms.at, terms.len, LISTS_OF(s), values, values_len);
}

/* Reads into stores of just the length that is needed. What stands in them has to be what stands at the front of the longest. */
typedef struct {
    uint8_t answer;
    uint64_t offset;
    system_t system;
    words_t terms;
} read_t;

/* Reading to records gives the same. */
static void check_read_records(const uint8_t *data, size_t size, const system_t *s, words_t terms, const uint64_t *values)
{
    system_t to = blank_system(s->len, 0);
    words_t to_terms = blank_words(terms.len);
    tiwzerand_definition *defs = blank(s->dsts_len, sizeof(tiwzerand_definition));
    uint64_t *told = blank(7, sizeof(uint64_t));
    CHECK(tiwzerand_read_records(data, size, to_terms.at, to_terms.len, ROWS_OF(&to), defs, s->dsts_len, told, 7) == 0);
    CHECK(memcmp(told, values, 7 * sizeof(uint64_t)) == 0 && same_words(to_terms, terms) && same_records(defs, s));
    for (int k = ANDS; k <= ZEROS; k++)
        CHECK(memcmp(to.list[k], s->list[k], s->len[k] * sizeof(uint64_t)) == 0);
    free(told);
    free(defs);
    free(to_terms.at);
    free_system(to);
}

static read_t read_file(const uint8_t *data, size_t size)
{
    const size_t most[LISTS] = {3 * 1024, 4 * 1024, 6 * 1024, 1024, 1024}, none[LISTS] = {0};
    system_t full = blank_system(most, 1024);
    words_t full_terms = blank_words(8192);
    uint64_t *values = blank(8, sizeof(uint64_t));
    read_t read = {.answer = read_into(data, size, full_terms, &full, values, 8)};
    if (read.answer != 0) {
        read.offset = values[0];
        CHECK(read.answer <= TIWZERAND_FULL && read.offset <= size);
        CHECK(system_is_blank(&full) && is_blank(full_terms.at, 8192 * sizeof(uint64_t)));
        CHECK(is_blank(values + 1, 7 * sizeof(uint64_t)));
        system_t empty = blank_system(none, 0);
        words_t no_terms = blank_words(0);
        uint64_t *offset = blank(1, sizeof(uint64_t));
        CHECK(read_into(data, size, no_terms, &empty, offset, 1) == read.answer && *offset == read.offset);
        free(offset);
        free(no_terms.at);
        free_system(empty);
    } else {
        CHECK(is_blank(values + 7, sizeof(uint64_t)));
        size_t len[LISTS];
        for (int k = 0; k < LISTS; k++)
            len[k] = values[1 + k] * operands[k];
        read.system = blank_system(len, values[5]);
        read.terms = blank_words(values[6]);
        uint64_t *again = blank(7, sizeof(uint64_t));
        /* One store, by turns, is a cell too short first. */
        int turn = next() % (LISTS + 2);
        system_t *s = &read.system;
        size_t *cells = turn < LISTS ? &s->len[turn] : turn == LISTS ? &s->dsts_len : &read.terms.len;
        if (*cells > 0) {
            --*cells;
            CHECK(read_into(data, size, read.terms, s, again, 7) == TIWZERAND_ROOM && again[0] == size);
            ++*cells;
            CHECK(system_is_blank(s) && is_blank(read.terms.at, read.terms.len * sizeof(uint64_t)));
            memset(again, PATTERN, 7 * sizeof(uint64_t));
        }
        CHECK(read_into(data, size, read.terms, s, again, 7) == 0 && memcmp(again, values, 7 * sizeof(uint64_t)) == 0);
        s->wires = values[0];
        for (int k = 0; k < LISTS; k++) {
            s->count[k] = values[1 + k];
            CHECK(memcmp(s->list[k], full.list[k], len[k] * sizeof(uint64_t)) == 0);
            CHECK(is_blank(full.list[k] + len[k], (most[k] - len[k]) * sizeof(uint64_t)));
        }
        CHECK(memcmp(s->dsts, full.dsts, s->dsts_len * sizeof(uint16_t)) == 0);
        CHECK(is_blank(full.dsts + s->dsts_len, (1024 - s->dsts_len) * sizeof(uint16_t)));
        CHECK(memcmp(read.terms.at, full_terms.at, read.terms.len * sizeof(uint64_t)) == 0);
        CHECK(is_blank(full_terms.at + read.terms.len, (8192 - read.terms.len) * sizeof(uint64_t)));
        CHECK(term_count(s) == read.terms.len);
        free(again);
        check_read_records(data, size, s, read.terms, values);
    }
    free(values);
    free(full_terms.at);
    free_system(full);
    return read;
}

static void free_read(read_t read)
{
    if (read.answer == 0) {
        free_system(read.system);
        free(read.terms.at);
    }
}

/* Writes a system, reads it back where the reader's limits let it, and gives whether there was a file. */
static int write_and_read(const system_t *s, words_t old, words_t new)
{
    uint8_t *file = blank(TIWZERAND_MAX_FILE, 1);
    uint64_t *length = blank(1, sizeof(uint64_t));
    uint8_t answer = tiwzerand_write(old.at, old.len, new.at, new.len, LISTS_OF(s), SIZES_OF(s), file, TIWZERAND_MAX_FILE, length, 1);
    if (answer == 0) {
        size_t size = *length;
        CHECK(size <= TIWZERAND_MAX_FILE && is_blank(file + size, TIWZERAND_MAX_FILE - size));
        uint8_t *exact = blank(size, 1);
        *length = 0;
        CHECK(tiwzerand_write(old.at, old.len, new.at, new.len, LISTS_OF(s), SIZES_OF(s), exact, size - 1, length, 1) == TIWZERAND_ROOM);
        CHECK(is_blank(exact, size) && *length == 0);
        CHECK(tiwzerand_write(old.at, old.len, new.at, new.len, LISTS_OF(s), SIZES_OF(s), exact, size, length, 1) == 0);
        CHECK(*length == size && memcmp(exact, file, size) == 0);
        read_t again = read_file(exact, size);
        if (term_count(s) <= TIWZERAND_MAX_TERMS)
            CHECK(again.answer == 0 && same_lists(s, old, new, &again.system, again.terms));
        else
            CHECK(again.answer == TIWZERAND_FULL);
        free_read(again);
        free(exact);
    } else {
        CHECK(answer == TIWZERAND_WIDE && is_blank(file, TIWZERAND_MAX_FILE) && is_blank(length, sizeof(uint64_t)));
    }
    free(length);
    free(file);
    return answer == 0;
}

/* The values of all operands, in a store of just their number. */
static words_t values_of(const system_t *s, words_t old, words_t new, words_t assignment)
{
    words_t out = blank_words(operand_count(s));
    uint64_t *count = blank(1, sizeof(uint64_t));
    if (out.len > 0) {
        CHECK(tiwzerand_evaluate(old.at, old.len, new.at, new.len, LISTS_OF(s), SIZES_OF(s), assignment.at, assignment.len, out.at,
                                 out.len - 1, count, 1) == TIWZERAND_ROOM);
    }
    CHECK(tiwzerand_evaluate(old.at, old.len, new.at, new.len, LISTS_OF(s), SIZES_OF(s), assignment.at, assignment.len - 1, out.at,
                             out.len, count, 1) == TIWZERAND_SIZE);
    CHECK(is_blank(out.at, out.len * sizeof(uint64_t)) && is_blank(count, sizeof(uint64_t)));
    CHECK(tiwzerand_evaluate(old.at, old.len, new.at, new.len, LISTS_OF(s), SIZES_OF(s), assignment.at, assignment.len, out.at, out.len,
                             count, 1) == 0);
    CHECK(*count == out.len);
    free(count);
    return out;
}

static uint8_t fill_back(const system_t *s, words_t old, const uint8_t *flags, words_t assignment)
{
    return tiwzerand_fill_back(old.at, old.len, LISTS_OF(s), SIZES_OF(s), flags, s->wires, assignment.at, assignment.len);
}

static int names_defined(const uint64_t *row, size_t count, words_t old, const uint8_t *defined)
{
    const words_t none = {NULL, 0};
    for (size_t i = 0; i < count; i++) {
        const uint64_t *terms = terms_of(row[i], old, none);
        for (size_t t = 0; t < tiwzerand_operand_len(row[i]); t++)
            if (defined[tiwzerand_term_wire(terms[t])])
                return 1;
    }
    return 0;
}

/* Old values where the new lists have them: constraints that name a defined wire come last, and each definition has its wire's word. */
static void check_values(const system_t *before, words_t old, words_t values, const system_t *after, words_t new_values, words_t solved,
                         const uint8_t *defined)
{
    size_t at = 0, from = 0;
    for (int k = ANDS; k <= ZEROS; k++) {
        for (int last = 0; last < 2; last++)
            for (size_t i = 0; i < before->count[k]; i++) {
                size_t row = i * operands[k];
                if (names_defined(before->list[k] + row, operands[k], old, defined) != last)
                    continue;
                CHECK(memcmp(new_values.at + at, values.at + from + row, operands[k] * sizeof(uint64_t)) == 0);
                at += operands[k];
            }
        from += before->count[k] * operands[k];
    }
    for (size_t i = 0; i < after->count[RHSS]; i++)
        CHECK(new_values.at[at + i] == solved.at[after->dsts[i]]);
}

typedef struct {
    uint8_t answer;
    system_t system;
    words_t new;
    uint8_t *flags;
    uint64_t *values;
} fused_t;

static fused_t fuse(const system_t *s, words_t old, size_t room, size_t flags_len, uint64_t slots)
{
    fused_t f = {.system = copy_system(s), .new = blank_words(room), .flags = blank(flags_len, 1), .values = blank(6, sizeof(uint64_t))};
    system_t *after = &f.system;
    f.answer = tiwzerand_fuse(old.at, old.len, f.new.at, f.new.len, LISTS_OF(after), f.flags, flags_len, SIZES_OF(s), slots, f.values, 6);
    if (f.answer != 0) {
        CHECK(same_stores(after, s) && is_blank(f.new.at, room * sizeof(uint64_t)) && is_blank(f.flags, flags_len));
        CHECK(is_blank(f.values, 6 * sizeof(uint64_t)));
    } else {
        CHECK(is_blank(f.values + 5, sizeof(uint64_t)));
        after->count[RHSS] = f.values[1] + f.values[2];
        size_t left = after->count[RHSS], all = s->count[RHSS];
        CHECK(left <= all && f.values[0] == all - left && f.values[3] <= room && f.values[4] == s->wires - (all - f.values[2]));
        CHECK(is_blank(f.new.at + f.values[3], (room - f.values[3]) * sizeof(uint64_t)));
        CHECK(is_blank(f.flags + s->wires, flags_len - s->wires));
        CHECK(memcmp(after->dsts + left, s->dsts + left, (all - left) * sizeof(uint16_t)) == 0);
        CHECK(memcmp(after->list[RHSS] + left, s->list[RHSS] + left, (all - left) * sizeof(uint64_t)) == 0);
        size_t committed = 0;
        for (size_t wire = 0; wire < s->wires; wire++) {
            CHECK(f.flags[wire] <= 1);
            committed += f.flags[wire];
        }
        CHECK(committed == f.values[2]);
    }
    return f;
}

static void free_fused(fused_t f)
{
    free_system(f.system);
    free(f.new.at);
    free(f.flags);
    free(f.values);
}

static void refused(const system_t *s, words_t old, size_t room, size_t flags_len, uint64_t slots, uint8_t answer)
{
    fused_t f = fuse(s, old, room, flags_len, slots);
    CHECK(f.answer == answer);
    free_fused(f);
}

/* Fusing, writing, evaluating and filling back over records give what they give over numbers. */
static void check_records(const system_t *s, words_t old, words_t solved, const fused_t *f, uint64_t slots)
{
    system_t after = copy_system(s);
    tiwzerand_definition *defs = records_of(s), *before = records_of(s);
    words_t new = blank_words(f->new.len);
    uint8_t *flags = blank(s->wires, 1);
    uint64_t *told = blank(5, sizeof(uint64_t));
    CHECK(tiwzerand_fuse_records(old.at, old.len, new.at, new.len, ROWS_OF(&after), defs, s->dsts_len, flags, s->wires, SIZES_OF(s),
                                 slots, told, 5) == 0);
    CHECK(memcmp(told, f->values, 5 * sizeof(uint64_t)) == 0 && same_words(new, f->new) && memcmp(flags, f->flags, s->wires) == 0);
    CHECK(same_records(defs, &f->system));
    for (int k = ANDS; k <= ZEROS; k++)
        CHECK(memcmp(after.list[k], f->system.list[k], s->len[k] * sizeof(uint64_t)) == 0);
    after.count[RHSS] = f->system.count[RHSS];

    uint8_t *file = blank(TIWZERAND_MAX_FILE, 1), *by_records = blank(TIWZERAND_MAX_FILE, 1);
    const system_t *fused = &f->system;
    uint64_t length = 0, length_by_records = 0;
    uint8_t answer =
        tiwzerand_write(old.at, old.len, new.at, new.len, LISTS_OF(fused), SIZES_OF(fused), file, TIWZERAND_MAX_FILE, &length, 1);
    CHECK(tiwzerand_write_records(old.at, old.len, new.at, new.len, ROWS_OF(&after), defs, s->dsts_len, SIZES_OF(fused), by_records,
                                  TIWZERAND_MAX_FILE, &length_by_records, 1) == answer);
    CHECK(length == length_by_records && memcmp(file, by_records, TIWZERAND_MAX_FILE) == 0);
    free(file);
    free(by_records);

    words_t values = values_of(fused, old, new, solved), out = blank_words(operand_count(fused));
    CHECK(tiwzerand_evaluate_records(old.at, old.len, new.at, new.len, ROWS_OF(&after), defs, s->dsts_len, SIZES_OF(fused), solved.at,
                                     solved.len, out.at, out.len, &length, 1) == 0);
    CHECK(length == out.len && same_words(out, values));
    free(out.at);
    free(values.at);

    words_t words = copy_words(solved);
    for (size_t i = 0; i < s->dsts_len; i++)
        if (!flags[s->dsts[i]])
            words.at[s->dsts[i]] = next();
    CHECK(tiwzerand_fill_back_records(old.at, old.len, ROWS_OF(s), before, s->dsts_len, SIZES_OF(s), flags, s->wires, words.at,
                                      words.len) == 0);
    CHECK(same_words(words, solved));
    free(words.at);
    free(told);
    free(flags);
    free(new.at);
    free(before);
    free(defs);
    free_system(after);
}

static void check_fused(const system_t *s, words_t old, words_t solved, const uint8_t *defined, fused_t *f, uint64_t slots)
{
    /* The same again, in a store of just the terms that are written; and not in one that is shorter. */
    size_t written = f->values[3];
    fused_t again = fuse(s, old, written, s->wires, slots);
    CHECK(again.answer == 0 && same_stores(&again.system, &f->system) && memcmp(again.values, f->values, 5 * sizeof(uint64_t)) == 0);
    CHECK(memcmp(again.new.at, f->new.at, written * sizeof(uint64_t)) == 0 && memcmp(again.flags, f->flags, s->wires) == 0);
    if (written > 0)
        refused(s, old, written - 1, s->wires, slots, TIWZERAND_ROOM);
    refused(s, old, written, s->wires - 1, slots, TIWZERAND_ROOM);
    write_and_read(&again.system, old, again.new);

    const words_t none = {NULL, 0};
    words_t values = values_of(s, old, none, solved);
    words_t new_values = values_of(&again.system, old, again.new, solved);
    check_values(s, old, values, &again.system, new_values, solved, defined);
    free(new_values.at);
    free(values.at);

    words_t words = copy_words(solved);
    for (size_t wire = 0; wire < s->wires; wire++)
        if (defined[wire] && !again.flags[wire])
            words.at[wire] = next();
    CHECK(fill_back(s, old, again.flags, words) == 0 && same_words(words, solved));
    free(words.at);
    check_records(s, old, solved, &again, slots);
    free_fused(again);
}

static void check_system(const system_t *s, words_t old)
{
    const words_t none = {NULL, 0};
    CHECK(write_and_read(s, old, none));
    uint8_t *defined = calloc(s->wires, 1), *flags = calloc(s->wires, 1);
    CHECK(defined != NULL && flags != NULL);
    for (size_t i = 0; i < s->count[RHSS]; i++)
        defined[s->dsts[i]] = 1;
    words_t words = blank_words(s->wires);
    for (size_t wire = 0; wire < s->wires; wire++)
        words.at[wire] = next();
    words_t solved = copy_words(words);
    uint8_t filled = fill_back(s, old, flags, solved);
    CHECK(filled == 0 || (TIWZERAND_TWICE <= filled && filled <= TIWZERAND_CIRCLE && same_words(words, solved)));
    uint64_t other_slots[] = {0, 3, next() | 4};
    refused(s, old, 0, 0, other_slots[next() % 3], TIWZERAND_SLOTS);
    for (uint64_t slots = 1; slots <= 2; slots++) {
        fused_t f = fuse(s, old, TIWZERAND_MAX_NEW_TERMS, TIWZERAND_MAX_WIRES, slots);
        if (f.answer == 0) {
            CHECK(filled == 0);
            check_fused(s, old, solved, defined, &f, slots);
        } else {
            CHECK(f.answer == filled || (filled == 0 && f.answer == TIWZERAND_ROOM));
            refused(s, old, TIWZERAND_MAX_NEW_TERMS + 1, s->wires, slots, f.answer);
        }
        free_fused(f);
    }
    free(words.at);
    free(solved.at);
    free(flags);
    free(defined);
}

int LLVMFuzzerTestOneInput(const uint8_t *data, size_t size)
{
    state = 0xCBF29CE484222325u;
    for (size_t i = 0; i < size; i++)
        state = (state ^ data[i]) * 0x100000001B3u;
    read_t read = read_file(data, size);
    if (read.answer == 0)
        check_system(&read.system, read.terms);
    free_read(read);
    return 0;
}
