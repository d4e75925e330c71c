/*
 * Measures an executed ST1D (class 4: st1d { z3.d }, p0, [x1, z2.d]) on the input of the benchmark's cases 'store class 4, .., unsorted':
 * elements 24 bytes apart in a window of 4,096 bytes, in an order that doesn't ascend. Prints the vector length in bytes, and
 * nanoseconds a store with all lanes and with every second lane active: the medians of loops with the store, less that of the same
 * loop without it.
 */
#include <stdint.h>
#include <stdio.h>
#include <stdlib.h>
#include <string.h>
#include <time.h>

enum { SAMPLES = 501, TRIALS = 5, WINDOW = 4096, STEP = 24, LANES = 32, LOOPS = 3 };

/* How long a sample takes at least, in nanoseconds. */
static const uint64_t SAMPLE = 200000;

static uint64_t offsets[LANES], values[LANES];
static uint8_t window[WINDOW], all[LANES], half[LANES], none[LANES];

static uint64_t now(void)
{
    struct timespec time;
    clock_gettime(CLOCK_MONOTONIC, &time);
    return (uint64_t)time.tv_sec * 1000000000 + (uint64_t)time.tv_nsec;
}

/* A loop with these instructions in it. */
#define LOOP(instructions)                                                                                                             \
    __asm__ volatile("ldr z2, [%[offsets]]\n\t"                                                                                        \
                     "ldr z3, [%[values]]\n\t"                                                                                         \
                     "ldr p0, [%[mask]]\n\t"                                                                                           \
                     "0:\n\t" instructions "subs %[count], %[count], #1\n\t"                                                           \
                     "b.ne 0b\n\t"                                                                                                     \
                     : [count] "+r"(count)                                                                                             \
                     : [offsets] "r"(offsets), [values] "r"(values), [mask] "r"(mask), [window] "r"(window)                            \
                     : "z2", "z3", "p0", "cc", "memory")

static uint64_t stores(const uint8_t *mask, uint64_t count)
{
    uint64_t start = now();
    LOOP("st1d { z3.d }, p0, [%[window], z2.d]\n\t");
    return now() - start;
}

static uint64_t no_stores(const uint8_t *mask, uint64_t count)
{
    uint64_t start = now();
    LOOP("");
    return now() - start;
}

struct loop {
    uint64_t (*run)(const uint8_t *mask, uint64_t count);
    const uint8_t *mask;
    uint64_t count;
    double samples[SAMPLES];
};

static int compare(const void *one, const void *other)
{
    double a = *(const double *)one, b = *(const double *)other;
    return (a > b) - (a < b);
}

/* Whether the window holds the lanes that the mask has, and nothing else. */
static int is_right(const uint8_t *mask, uint64_t lanes)
{
    uint8_t right[WINDOW] = {0};
    for (uint64_t e = 0; e < lanes; e++)
        if (mask[e] & 1)
            memcpy(right + offsets[e], &values[e], 8);
    return memcmp(right, window, WINDOW) == 0;
}

static void prepare(uint64_t lanes)
{
    for (uint64_t e = 0; e < lanes; e++) {
        offsets[e] = (e * 37 + 1) % lanes * STEP;
        values[e] = 0x0706050403020100 + e * 0x0808080808080808;
        all[e] = 1;
        half[e] = e % 2 == 0;
    }
}

/* Lets a loop be long enough several times: once may be a disturbance. */
static void lengthen(struct loop *loop)
{
    for (int trial = 0; trial < TRIALS; trial++)
        if (loop->run(loop->mask, loop->count) < SAMPLE) {
            loop->count *= 2;
            trial = -1;
        }
}

/* Takes the loops' samples in turn and sorts them. */
static void measure(struct loop *loops)
{
    for (int k = 0; k < LOOPS; k++)
        lengthen(&loops[k]);
    for (int sample = 0; sample < SAMPLES; sample++)
        for (int k = 0; k < LOOPS; k++)
            loops[k].samples[sample] = (double)loops[k].run(loops[k].mask, loops[k].count) / (double)loops[k].count;
    for (int k = 0; k < LOOPS; k++)
        qsort(loops[k].samples, SAMPLES, sizeof(double), compare);
}

int main(void)
{
    uint64_t vb;
    __asm__ volatile("cntb %0" : "=r"(vb));
    uint64_t lanes = vb / 8;
    prepare(lanes);
    const uint8_t *masks[] = {none, half, all};
    for (int k = 0; k < 3; k++) {
        stores(masks[k], 1);
        if (!is_right(masks[k], lanes)) {
            fprintf(stderr, "the store left something else\n");
            return 1;
        }
    }
    static struct loop loops[LOOPS] = {{no_stores, all, 1, {0}}, {stores, all, 1, {0}}, {stores, half, 1, {0}}};
    measure(loops);
    double empty = loops[0].samples[SAMPLES / 2];
    printf("%u %.1f %.1f\n", (unsigned)vb, loops[1].samples[SAMPLES / 2] - empty, loops[2].samples[SAMPLES / 2] - empty);
    return 0;
}
