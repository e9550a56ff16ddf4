/* Calls every function of tiwzerand.h on the paper's examples and on what each has to refuse; records.c calls the record forms. Prints what
 * went wrong, and how many went right. */
#include <stdio.h>
#include <string.h>

#include "tiwzerand.h"

#define LEN(store) (sizeof(store) / sizeof((store)[0]))

static unsigned right, wrong;

static void expect(int holds, int line)
{
    if (holds) {
        right++;
    } else {
        wrong++;
        printf("check.c:%d does not hold\n", line);
    }
}

#define EXPECT(holds) expect((holds), __LINE__)

/* A small system, in stores that are longer than it asks, with marks in what is left over. */
struct small {
    uint64_t terms[32], new_terms[32], ands[6], imuls[4], bmuls[6], zeros[2], rhss[4];
    uint16_t dsts[4];
    uint8_t flags[16];
    size_t wires, n_ands, n_imuls, n_bmuls, n_zeros, n_linears;
};

static uint64_t values[TIWZERAND_MAX_VALUES];

static uint8_t read_in(struct small *s, const uint8_t *bytes, size_t n)
{
    uint8_t r = tiwzerand_read(bytes, n, s->terms, LEN(s->terms), s->ands, LEN(s->ands), s->imuls, LEN(s->imuls), s->bmuls, LEN(s->bmuls),
                               s->zeros, LEN(s->zeros), s->dsts, LEN(s->dsts), s->rhss, LEN(s->rhss), values, LEN(values));
    if (r == TIWZERAND_DONE) {
        s->wires = values[0];
        s->n_ands = values[1];
        s->n_imuls = values[2];
        s->n_bmuls = values[3];
        s->n_zeros = values[4];
        s->n_linears = values[5];
    }
    return r;
}

static uint8_t fuse_it(struct small *s, uint64_t slots)
{
    return tiwzerand_fuse(s->terms, LEN(s->terms), s->new_terms, LEN(s->new_terms), s->ands, LEN(s->ands), s->imuls, LEN(s->imuls), s->bmuls,
                          LEN(s->bmuls), s->zeros, LEN(s->zeros), s->dsts, LEN(s->dsts), s->rhss, LEN(s->rhss), s->flags, LEN(s->flags),
                          s->wires, s->n_ands, s->n_imuls, s->n_bmuls, s->n_zeros, s->n_linears, slots, values, LEN(values));
}

static uint8_t write_out(const struct small *s, size_t new_len, uint8_t *out, size_t n)
{
    return tiwzerand_write(s->terms, LEN(s->terms), new_len ? s->new_terms : NULL, new_len, s->ands, LEN(s->ands), s->imuls, LEN(s->imuls),
                           s->bmuls, LEN(s->bmuls), s->zeros, LEN(s->zeros), s->dsts, LEN(s->dsts), s->rhss, LEN(s->rhss), s->wires,
                           s->n_ands, s->n_imuls, s->n_bmuls, s->n_zeros, s->n_linears, out, n, values, LEN(values));
}

static uint8_t evaluate_it(const struct small *s, size_t new_len, const uint64_t *words, size_t n, uint64_t *out, size_t room)
{
    return tiwzerand_evaluate(s->terms, LEN(s->terms), s->new_terms, new_len, s->ands, LEN(s->ands), s->imuls, LEN(s->imuls), s->bmuls,
                              LEN(s->bmuls), s->zeros, LEN(s->zeros), s->dsts, LEN(s->dsts), s->rhss, LEN(s->rhss), s->wires, s->n_ands,
                              s->n_imuls, s->n_bmuls, s->n_zeros, s->n_linears, words, n, out, room, values, LEN(values));
}

static uint8_t fill_it(const struct small *s, const uint8_t *flags, size_t n_flags, uint64_t *words, size_t n)
{
    return tiwzerand_fill_back(s->terms, LEN(s->terms), s->ands, LEN(s->ands), s->imuls, LEN(s->imuls), s->bmuls, LEN(s->bmuls), s->zeros,
                               LEN(s->zeros), s->dsts, LEN(s->dsts), s->rhss, LEN(s->rhss), s->wires, s->n_ands, s->n_imuls, s->n_bmuls,
                               s->n_zeros, s->n_linears, flags, n_flags, words, n);
}

static void shifts(void)
{
    uint16_t slr32 = tiwzerand_shift(TIWZERAND_SLR, 32), slr33 = tiwzerand_shift(TIWZERAND_SLR, 33);
    uint16_t sra32_5 = tiwzerand_shift(TIWZERAND_SRA32, 5), sll40 = tiwzerand_shift(TIWZERAND_SLL, 40);
    EXPECT(tiwzerand_compose(slr32, sra32_5, values, 7) == 0 && values[0] == 2);
    EXPECT(tiwzerand_compose(slr33, sra32_5, values, 7) == 0 && values[0] == 0 && values[1] == tiwzerand_shift(TIWZERAND_SLR, 38));
    EXPECT(tiwzerand_compose(sll40, tiwzerand_shift(TIWZERAND_SLL, 24), values, 7) == 0 && values[0] == 1);

    /* a refusal leaves the values; values past the end are dropped; nothing need be lent */
    values[0] = 77;
    EXPECT(tiwzerand_compose(tiwzerand_shift(TIWZERAND_SLL32, 32), 0, values, 7) == TIWZERAND_SHIFT && values[0] == 77);
    EXPECT(tiwzerand_compose(0, 512, values, 7) == TIWZERAND_SHIFT && tiwzerand_compose(UINT64_MAX, 0, values, 7) == TIWZERAND_SHIFT);
    values[1] = 78;
    EXPECT(tiwzerand_compose(slr33, sra32_5, values, 1) == 0 && values[0] == 0 && values[1] == 78);
    EXPECT(tiwzerand_compose(slr33, sra32_5, NULL, 0) == 0);

    uint16_t sll1 = tiwzerand_shift(TIWZERAND_SLL, 1), sll31 = tiwzerand_shift(TIWZERAND_SLL, 31);
    EXPECT(tiwzerand_push_inner(sll1, tiwzerand_shift(TIWZERAND_SLL32, 11), sll31, 2, values, 7) == 0 && values[0] == 0
           && values[1] == tiwzerand_shift(TIWZERAND_SLL, 43) && values[2] == 0);
    EXPECT(tiwzerand_push_inner(sll1, 0, tiwzerand_shift(TIWZERAND_SLR, 2), 0, values, 7) == 0 && values[0] == 2);
    EXPECT(tiwzerand_push_inner(sll1, 0, tiwzerand_shift(TIWZERAND_SLR, 2), UINT64_MAX, values, 7) == 0 && values[0] == 0);
    EXPECT(tiwzerand_push_inner(0, 0, 288, 2, values, 7) == TIWZERAND_SHIFT);
}

/* And with a = (d, sll 1), b = c = x; d = (x, slr 2) xor y. Wires: x 0, y 1, d 2. */
static void and_example(void)
{
    struct small s, before;
    memset(&s, 0xee, sizeof s);
    uint16_t sll1 = tiwzerand_shift(TIWZERAND_SLL, 1), slr2 = tiwzerand_shift(TIWZERAND_SLR, 2);
    s.wires = 3;
    s.n_ands = 1;
    s.n_imuls = s.n_bmuls = s.n_zeros = 0;
    s.n_linears = 1;
    s.terms[0] = tiwzerand_term(2, sll1, 0);
    s.terms[1] = tiwzerand_term(0, 0, 0);
    s.terms[2] = tiwzerand_term(0, slr2, 0);
    s.terms[3] = tiwzerand_term(1, 0, 0);
    s.ands[0] = tiwzerand_operand(0, 1, 0);
    s.ands[1] = s.ands[2] = tiwzerand_operand(1, 1, 0);
    s.dsts[0] = 2;
    s.rhss[0] = tiwzerand_operand(2, 2, 0);
    memcpy(&before, &s, sizeof s);

    EXPECT(fuse_it(&s, 3) == TIWZERAND_SLOTS && memcmp(&s, &before, sizeof s) == 0);
    EXPECT(fuse_it(&s, 2) == 0);
    EXPECT(values[0] == 1 && values[1] == 0 && values[2] == 0 && values[3] == 4 && values[4] == 2);
    EXPECT(tiwzerand_operand_in_new(s.ands[0]) && tiwzerand_operand_start(s.ands[0]) == 0 && tiwzerand_operand_len(s.ands[0]) == 2);
    EXPECT(s.new_terms[0] == tiwzerand_term(0, slr2, sll1) && s.new_terms[1] == tiwzerand_term(1, sll1, 0));
    EXPECT(s.flags[0] == 0 && s.flags[1] == 0 && s.flags[2] == 0 && s.flags[3] == 0xee);
    EXPECT(tiwzerand_term_wire(s.new_terms[1]) == 1 && tiwzerand_term_inner(s.new_terms[0]) == slr2 && tiwzerand_term_outer(s.new_terms[0]) == sll1);

    /* evaluated before and after, and filled back */
    uint64_t words[3] = {0xf0, 3, 0xf0 / 4 ^ 3}, out[8] = {9, 9, 9, 9, 9, 9, 9, 9}, after[8];
    EXPECT(evaluate_it(&before, 0, words, 3, out, 8) == 0 && values[0] == 4);
    EXPECT(out[0] == 2 * words[2] && out[1] == words[0] && out[2] == words[0] && out[3] == words[2] && out[4] == 9);
    words[2] = 12345;
    s.n_linears = 0;
    EXPECT(evaluate_it(&s, LEN(s.new_terms), words, 3, after, 8) == 0 && values[0] == 3 && memcmp(out, after, 24) == 0);
    EXPECT(evaluate_it(&s, LEN(s.new_terms), words, 2, after, 8) == TIWZERAND_SIZE);
    EXPECT(evaluate_it(&s, LEN(s.new_terms), words, 3, after, 2) == TIWZERAND_ROOM);
    EXPECT(evaluate_it(&s, 3, words, 3, after, 8) == TIWZERAND_SHAPE);
    EXPECT(fill_it(&before, s.flags, 4, words, 3) == TIWZERAND_SIZE && words[2] == 12345);
    EXPECT(fill_it(&before, s.flags, 3, words, 3) == 0 && words[2] == (0xf0 / 4 ^ 3));

    memcpy(&s, &before, sizeof s);
    EXPECT(fuse_it(&s, 1) == 0 && values[2] == 1 && s.flags[2] == 1 && s.flags[0] == 0);
}

static const uint8_t example[] = {0x01, 0x02, 0x00, 0x03, 0x00, 0x05, 0x08, 0x00, 0x01, 0x00, 0x01, 0x00, 0x28, 0x00, 0x00,
                                  0x00, 0x06, 0x0a, 0x00, 0x01, 0x00, 0x01, 0x00, 0x02, 0x00, 0x28, 0x00, 0x00, 0x00, 0x06,
                                  0x0a, 0x00, 0x02, 0x00, 0x01, 0x00, 0x00, 0x00, 0x00, 0x00, 0x00, 0x00, 0x07, 0x00, 0x00};

static void files(void)
{
    struct small s, before;
    uint8_t out[64];
    memset(&s, 0xee, sizeof s);
    memcpy(&before, &s, sizeof s);
    for (size_t n = 0; n < sizeof example; n++)
        EXPECT(read_in(&s, example, n) == TIWZERAND_CUT && values[0] <= n && memcmp(&s, &before, sizeof s) == 0);
    EXPECT(read_in(&s, NULL, 0) == TIWZERAND_CUT && values[0] == 0);
    EXPECT(read_in(&s, example, sizeof example) == 0);
    EXPECT(s.wires == 3 && s.n_ands == 0 && s.n_imuls == 0 && s.n_bmuls == 0 && s.n_zeros == 1 && s.n_linears == 2 && values[6] == 3);
    EXPECT(write_out(&s, 0, out, sizeof out) == 0 && values[0] == sizeof example && memcmp(out, example, sizeof example) == 0);
    EXPECT(write_out(&s, 0, out, sizeof example - 1) == TIWZERAND_ROOM);
    EXPECT(fuse_it(&s, 2) == 0);
    EXPECT(values[0] == 1 && values[1] == 1 && values[2] == 0 && values[3] == 0 && values[4] == 1);
    s.n_linears = 1;
    EXPECT(write_out(&s, LEN(s.new_terms), out, sizeof out) == 0 && values[0] == 26);
}

int main(void)
{
    shifts();
    and_example();
    files();
    printf("%u right, %u wrong\n", right, wrong);
    return wrong != 0;
}
