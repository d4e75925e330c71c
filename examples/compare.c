/*
 * Compares a simulator with the model over random stores, and prints the first one over which they differ as a file that
 * `starshackle run` takes. A simulator of your own is a function `simulate`, as declared below, in a file that is compiled with this one:
 *
 *     cc -DOWN -Iinclude examples/compare.c your.c target/staticlib/libstarshackle.a -o compare
 *     ./compare 1000000 >different.store || ./starshackle run different.store
 *
 * Without OWN there is a simulator here, which takes its elements from the model; with WRONG it writes them in the wrong order.
 *
 * usage: compare [STORES [SEED]]    Exit status: 0 no difference, 1 a difference, 2 bad usage
 */
#include <inttypes.h>
#include <stdio.h>
#include <stdlib.h>
#include <string.h>

#include "starshackle.h"

/*
 * Runs the store that a word names over the memory from the address `base` on. Answers STARSHACKLE_DONE, or STARSHACKLE_FAULT where an
 * active element has a byte outside; then what it has written isn't looked at. The arguments are as in starshackle_store.
 */
uint64_t simulate(size_t vb, uint64_t flags, const uint64_t x[31], uint64_t sp, const uint8_t *z, const uint8_t *p, uint64_t base,
                  uint8_t *memory, size_t length, uint32_t word);

enum { LENGTH = 4096, FILLING = 0xEE };
static const uint64_t BASE = 0x10000;

/* The machine. For every vb the registers are at the fronts of z and p. */
static struct {
    size_t vb;
    uint64_t flags, x[31], sp;
    uint8_t z[32 * 256], p[2 * 256];
} m;

static uint64_t state;

static uint64_t below(uint64_t bound)
{
    state ^= state << 13, state ^= state >> 7, state ^= state << 17;
    return (state >> 11) % bound;
}

/* A word of any class, and a machine on which it is legal and mostly hits the window. */
static uint32_t draw(void)
{
    uint64_t fields[8] = {0}, answer[5], element[5], vector, class;
    uint32_t word;
    size_t k;
    do {
        fields[STARSHACKLE_FIELD_CLASS] = class = 1 + below(36);
        fields[STARSHACKLE_FIELD_INDEX] = below(2) * below(32);
        fields[STARSHACKLE_FIELD_EXTENSION] = below(3);
        fields[STARSHACKLE_FIELD_PREDICATE] = below(8);
        fields[STARSHACKLE_FIELD_BASE] = below(32);
        fields[STARSHACKLE_FIELD_REGISTER] = below(32);
        fields[STARSHACKLE_FIELD_MULTIPLE] = below(2) * (2 * below(31) - 32);
    } while (starshackle_encode(fields, answer) != STARSHACKLE_DONE);
    word = (uint32_t)answer[4];

    m.vb = (size_t)16 << below(5);
    m.flags = STARSHACKLE_FLAG_SVE | STARSHACKLE_FLAG_SME2 | STARSHACKLE_FLAG_SVE2P1;
    for (k = 0; k < sizeof m.z; k++)
        m.z[k] = (uint8_t)below(256);
    for (k = 0; k < sizeof m.p; k++)
        m.p[k] = (uint8_t)below(256);
    for (k = 0; k < 31; k++)
        m.x[k] = below(16);
    m.sp = BASE + LENGTH / 2;
    if (class != STARSHACKLE_CLASS_ST1Q && fields[STARSHACKLE_FIELD_BASE] < 31)
        m.x[fields[STARSHACKLE_FIELD_BASE]] = below(8) ? m.sp + below(16) : BASE + below(LENGTH);

    if ((class >= 8 && class <= 11) || class >= 25) { /* strided */
        m.flags |= STARSHACKLE_FLAG_STREAMING;
        return word;
    }
    /* A vector of small offsets, or of addresses in the window: zeros but for some low bytes of each element. */
    starshackle_element(m.vb, m.flags, m.x, m.sp, m.z, 32 * m.vb, m.p, 2 * m.vb, word, 0, element);
    vector = m.vb * fields[class == STARSHACKLE_CLASS_ST1Q ? STARSHACKLE_FIELD_BASE : STARSHACKLE_FIELD_INDEX];
    memset(m.z + vector, 0, m.vb);
    for (k = 0; k < m.vb; k += m.vb / element[4]) {
        m.z[vector + k] = (uint8_t)below(128);
        m.z[vector + k + 2] = class == STARSHACKLE_CLASS_ST1Q ? (uint8_t)(BASE >> 16) : 0;
    }
    return word;
}

static void print_bytes(char kind, unsigned number, const uint8_t *bytes, size_t count)
{
    printf("%c%u =", kind, number);
    while (count--)
        printf(" %02X", *bytes++);
    printf("\n");
}

/* The store as a file. */
static void print_store(uint32_t word)
{
    unsigned r;
    printf("word = 0x%08" PRIX32 "\nvb = %u\n", word, (unsigned)m.vb);
    printf("flags = sve sme2 sve2p1%s\n", m.flags & STARSHACKLE_FLAG_STREAMING ? " streaming" : "");
    for (r = 0; r < 31; r++)
        printf("x%u = 0x%" PRIX64 "\n", r, m.x[r]);
    printf("sp = 0x%" PRIX64 "\n", m.sp);
    for (r = 0; r < 32; r++)
        print_bytes('z', r, m.z + r * m.vb, m.vb);
    for (r = 0; r < 16; r++)
        print_bytes('p', r, m.p + r * m.vb / 8, m.vb / 8);
    printf("window = 0x%" PRIX64 "\nlength = %d\nmemory = %02X ...\n", BASE, LENGTH, FILLING);
}

static uint64_t number(const char *text)
{
    if (strlen(text) == 0 || strlen(text) > 18 || strspn(text, "0123456789") != strlen(text)) {
        fprintf(stderr, "compare: '%s' is no number of up to 18 digits\nusage: compare [STORES [SEED]]\n", text);
        exit(2);
    }
    return strtoull(text, NULL, 10);
}

int main(int count, char **arguments)
{
    static uint8_t right[LENGTH], found[LENGTH], patch[STARSHACKLE_LARGEST_STORE_PATCH];
    uint64_t stores = count > 1 ? number(arguments[1]) : 100000, done = 0, n, answer[6];
    state = 0x9E3779B97F4A7C15 ^ (count > 2 ? number(arguments[2]) : 1);
    if (count > 3) {
        fprintf(stderr, "usage: compare [STORES [SEED]]\n");
        return 2;
    }
    for (n = 0; n < stores; n++) {
        uint32_t word = draw();
        uint64_t verdict, answered;
        size_t k = 0;
        memset(right, FILLING, LENGTH);
        memset(found, FILLING, LENGTH);
        verdict = starshackle_store(m.vb, m.flags, m.x, m.sp, m.z, 32 * m.vb, m.p, 2 * m.vb, BASE, right, LENGTH, word, patch,
                                    sizeof patch, answer);
        answered = simulate(m.vb, m.flags, m.x, m.sp, m.z, m.p, BASE, found, LENGTH, word);
        while (k < LENGTH && (verdict != STARSHACKLE_DONE || right[k] == found[k]))
            k++;
        if (answered == verdict && k == LENGTH) {
            done += verdict == STARSHACKLE_DONE;
            continue;
        }
        printf("# Store %" PRIu64 ": the model's verdict is %" PRIu64 ", the simulator's %" PRIu64 ".\n", n, verdict, answered);
        if (answered == verdict)
            printf("# At 0x%" PRIX64 " the model leaves %02X, the simulator %02X.\n", BASE + k, right[k], found[k]);
        print_store(word);
        return 1;
    }
    printf("%" PRIu64 " stores, %" PRIu64 " of them done: no difference\n", stores, done);
    return 0;
}

#ifndef OWN
uint64_t simulate(size_t vb, uint64_t flags, const uint64_t x[31], uint64_t sp, const uint8_t *z, const uint8_t *p, uint64_t base,
                  uint8_t *memory, size_t length, uint32_t word)
{
    uint64_t one[5] = {0}, e;
    uint64_t count = starshackle_element(vb, flags, x, sp, z, 32 * vb, p, 2 * vb, word, 0, one) == STARSHACKLE_DONE ? one[4] : 0;
    for (e = 0; e < count; e++) {
#ifdef WRONG
        uint64_t next = count - 1 - e;
#else
        uint64_t next = e;
#endif
        starshackle_element(vb, flags, x, sp, z, 32 * vb, p, 2 * vb, word, next, one);
        if (one[0] && (one[1] < base || one[1] - base >= length || length - (one[1] - base) < one[3]))
            return STARSHACKLE_FAULT;
        if (one[0])
            memcpy(memory + (one[1] - base), z + one[2], (size_t)one[3]);
    }
    return STARSHACKLE_DONE;
}
#endif
