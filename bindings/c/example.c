/* Reads a house file, fuses it with two slots, prints the counts and writes the fused file: example IN OUT */
#include <stdio.h>

#include "tiwzerand.h"

#define LEN(store) (sizeof(store) / sizeof((store)[0]))

static uint8_t input[TIWZERAND_MAX_FILE];
static uint64_t terms[TIWZERAND_MAX_TERMS];
static uint64_t new_terms[TIWZERAND_MAX_NEW_TERMS];
static uint64_t ands[TIWZERAND_AND_OPERANDS * TIWZERAND_MAX_OTHERS];
static uint64_t imuls[TIWZERAND_IMUL_OPERANDS * TIWZERAND_MAX_OTHERS];
static uint64_t bmuls[TIWZERAND_BMUL_OPERANDS * TIWZERAND_MAX_OTHERS];
static uint64_t zeros[TIWZERAND_ZERO_OPERANDS * TIWZERAND_MAX_OTHERS];
static tiwzerand_definition defs[TIWZERAND_MAX_DEFINITIONS];
static uint8_t flags[TIWZERAND_MAX_WIRES];
static uint8_t output[TIWZERAND_MAX_FILE];
static uint64_t values[TIWZERAND_MAX_VALUES];

static int refused(const char *what, uint8_t number)
{
    fprintf(stderr, "%s: refused %u %s\n", what, (unsigned)number, tiwzerand_name(number));
    return 1;
}

int main(int argc, char **argv)
{
    if (argc != 3) {
        fprintf(stderr, "usage: %s IN OUT\n", argv[0]);
        return 2;
    }
    FILE *in = fopen(argv[1], "rb");
    if (in == NULL) {
        perror(argv[1]);
        return 2;
    }
    size_t n = fread(input, 1, sizeof input, in);
    int whole = fgetc(in) == EOF && !ferror(in);
    fclose(in);
    if (!whole) {
        fprintf(stderr, "%s: not read, or longer than any file here\n", argv[1]);
        return 2;
    }

    uint8_t r = tiwzerand_read_records(input, n, terms, LEN(terms), ands, LEN(ands), imuls, LEN(imuls), bmuls, LEN(bmuls), zeros, LEN(zeros),
                                       defs, LEN(defs), values, LEN(values));
    if (r != TIWZERAND_DONE) {
        fprintf(stderr, "at offset %llu: ", (unsigned long long)values[0]);
        return refused(argv[1], r);
    }
    size_t wires = values[0], n_ands = values[1], n_imuls = values[2], n_bmuls = values[3], n_zeros = values[4], n_linears = values[5];

    r = tiwzerand_fuse_records(terms, LEN(terms), new_terms, LEN(new_terms), ands, LEN(ands), imuls, LEN(imuls), bmuls, LEN(bmuls), zeros,
                               LEN(zeros), defs, LEN(defs), flags, LEN(flags), wires, n_ands, n_imuls, n_bmuls, n_zeros, n_linears, 2,
                               values, LEN(values));
    if (r != TIWZERAND_DONE)
        return refused("fusing", r);
    unsigned long long stranded = values[1], committed = values[2], written = values[3], kept = values[4];
    n_linears = values[1] + values[2];
    printf("ok %zu %zu %zu %zu %zu %llu %llu %llu %llu\n", n_ands, n_imuls, n_bmuls, n_zeros, n_linears, committed, stranded, written,
           kept);

    r = tiwzerand_write_records(terms, LEN(terms), new_terms, LEN(new_terms), ands, LEN(ands), imuls, LEN(imuls), bmuls, LEN(bmuls), zeros,
                                LEN(zeros), defs, LEN(defs), wires, n_ands, n_imuls, n_bmuls, n_zeros, n_linears, output, sizeof output,
                                values, LEN(values));
    if (r != TIWZERAND_DONE)
        return refused("writing", r);
    FILE *out = fopen(argv[2], "wb");
    if (out == NULL || fwrite(output, 1, values[0], out) != values[0] || fclose(out) != 0) {
        perror(argv[2]);
        return 2;
    }
    return 0;
}
