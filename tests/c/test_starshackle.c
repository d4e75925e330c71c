/* The C interface: document 01's examples, every verdict with its detail, null pointers, lengths, and what a refusal leaves. */
#include <inttypes.h>
#include <stdio.h>
#include <stdlib.h>
#include <string.h>

#include "starshackle.h"

static unsigned long checks;

static void fail(int line, const char *what)
{
    fprintf(stderr, "%s:%d: failed: %s\n", __FILE__, line, what);
    exit(1);
}

static void check(int line, int holds, const char *what)
{
    checks++;
    if (!holds)
        fail(line, what);
}

#define CHECK(condition) check(__LINE__, (condition) != 0, #condition)

/* ---- answers */

/* starshackle_store has six entries, the others have five and leave the last alone. */
static uint64_t answer[6];
static uint64_t fields[8];
static const uint64_t UNWRITTEN = UINT64_C(0x5A5A5A5A5A5A5A5A);

static void show(const char *name, uint64_t number, const uint64_t *entries, size_t count)
{
    size_t i;
    fprintf(stderr, "  %s: %" PRIu64 " with", name, number);
    for (i = 0; i < count; i++)
        fprintf(stderr, " %" PRIX64 "h", entries[i]);
    fprintf(stderr, "\n");
}

static void expect(int line, const char *what, uint64_t number, const uint64_t *got, uint64_t number2, const uint64_t *wanted,
                   size_t count)
{
    checks++;
    if (number == number2 && memcmp(got, wanted, count * sizeof *got) == 0)
        return;
    show("answered", number, got, count);
    show("expected", number2, wanted, count);
    fail(line, what);
}

static void expect_answer(int line, const char *what, uint64_t number, uint64_t number2, uint64_t a, uint64_t b, uint64_t c,
                          uint64_t d, uint64_t e, uint64_t f)
{
    uint64_t wanted[6];
    wanted[0] = a, wanted[1] = b, wanted[2] = c, wanted[3] = d, wanted[4] = e, wanted[5] = f;
    expect(line, what, number, answer, number2, wanted, 6);
    memset(answer, 0x5A, sizeof answer); /* so that the next call has to write its entries */
}

/* A call that answers into `answer`: its verdict and all its entries. */
#define ANSWERS(call, number, a, b, c, d, e) expect_answer(__LINE__, #call, call, number, a, b, c, d, e, UNWRITTEN)
#define REFUSED(call, number) ANSWERS(call, number, 0, 0, 0, 0, 0)
#define STORES(call, number, e, address, elements, bytes, length, steps) \
    expect_answer(__LINE__, #call, call, number, e, address, elements, bytes, length, steps)
#define STORE_REFUSED(call, number) STORES(call, number, 0, 0, 0, 0, 0, 0)

/* ---- a machine and its window, which has bytes before and behind it that no call may touch */

enum { MOST_VB = 256, FENCE = 64, MOST_MEMORY = STARSHACKLE_LARGEST_WINDOW + 1, MOST_PATCH = STARSHACKLE_LARGEST_PATCH };

static struct {
    size_t vb;
    uint64_t flags, x[31], sp;
    uint8_t z[32 * MOST_VB], p[2 * MOST_VB];
    size_t z_len, p_len;
    uint64_t base;
    size_t length;
} m;

static uint8_t memory_area[FENCE + MOST_MEMORY + FENCE], memory_before[FENCE + MOST_MEMORY + FENCE];
static uint8_t patch_area[FENCE + MOST_PATCH + FENCE], patch_before[FENCE + MOST_PATCH + FENCE];
static uint8_t *const memory = memory_area + FENCE;
static uint8_t *const patch = patch_area + FENCE;

/* A filling that differs from byte to byte. */
static void fill(void)
{
    size_t i;
    for (i = 0; i < sizeof memory_area; i++)
        memory_area[i] = (uint8_t)(i * 7 + i / 256 + 1);
    for (i = 0; i < sizeof patch_area; i++)
        patch_area[i] = (uint8_t)(i * 11 + i / 256 + 3);
    memcpy(memory_before, memory_area, sizeof memory_area);
    memcpy(patch_before, patch_area, sizeof patch_area);
}

/* Another filling of the window. */
static void refill(uint8_t byte)
{
    memset(memory, byte, MOST_MEMORY);
    memcpy(memory_before, memory_area, sizeof memory_area);
}

static int untouched(void)
{
    return memcmp(memory_before, memory_area, sizeof memory_area) == 0 && memcmp(patch_before, patch_area, sizeof patch_area) == 0;
}

/* What is expected, put where it is expected, so that `untouched` compares the rest too. */
static void expect_memory(size_t offset, uint8_t byte)
{
    memory_before[FENCE + offset] = byte;
}

static void expect_patch(size_t index, const uint8_t *bytes, size_t length)
{
    memcpy(patch_before + FENCE + index, bytes, length);
}

/* Zeros, with a window of `length` bytes at `base`. */
static void machine(size_t vb, uint64_t flags, uint64_t base, size_t length)
{
    memset(&m, 0, sizeof m);
    m.vb = vb;
    m.flags = flags;
    m.z_len = 32 * vb;
    m.p_len = 2 * vb;
    m.base = base;
    m.length = length;
    fill();
}

/* Element e, of `bytes` bytes, of register r. */
static void set_z(size_t r, size_t e, size_t bytes, uint64_t value)
{
    size_t i;
    for (i = 0; i < bytes; i++)
        m.z[r * m.vb + e * bytes + i] = (uint8_t)(value >> (8 * i));
}

static void set_counter(size_t g, unsigned value)
{
    m.p[g * (m.vb / 8)] = (uint8_t)value;
    m.p[g * (m.vb / 8) + 1] = (uint8_t)(value >> 8);
}

static void all_active(void)
{
    memset(m.p, 0xFF, sizeof m.p);
}

static uint64_t store(uint32_t word, size_t room)
{
    return starshackle_store(m.vb, m.flags, m.x, m.sp, m.z, m.z_len, m.p, m.p_len, m.base, memory, m.length, word, patch, room,
                             answer);
}

static uint64_t element(uint32_t word, uint64_t e)
{
    return starshackle_element(m.vb, m.flags, m.x, m.sp, m.z, m.z_len, m.p, m.p_len, word, e, answer);
}

static uint64_t apply(const uint8_t *bytes, size_t length)
{
    return starshackle_apply(m.base, memory, m.length, bytes, length, answer);
}

/* ---- words and decoded stores */

static void word_is(int line, uint32_t word, uint64_t class, uint64_t index, uint64_t extension, uint64_t predicate, uint64_t base,
                    uint64_t reg, int64_t multiple)
{
    uint64_t wanted[8], given[8];
    wanted[STARSHACKLE_FIELD_CLASS] = class;
    wanted[STARSHACKLE_FIELD_INDEX] = index;
    wanted[STARSHACKLE_FIELD_EXTENSION] = extension;
    wanted[STARSHACKLE_FIELD_PREDICATE] = predicate;
    wanted[STARSHACKLE_FIELD_BASE] = base;
    wanted[STARSHACKLE_FIELD_REGISTER] = reg;
    wanted[STARSHACKLE_FIELD_MULTIPLE] = (uint64_t)multiple;
    wanted[STARSHACKLE_FIELD_ZERO] = 0;
    memset(fields, 0x5A, sizeof fields);
    expect(line, "decoding", starshackle_decode(word, fields), fields, STARSHACKLE_DONE, wanted, 8);
    memcpy(given, wanted, sizeof given);
    expect_answer(line, "encoding", starshackle_encode(given, answer), STARSHACKLE_DONE, 0, 0, 0, 0, word, UNWRITTEN);
    check(line, memcmp(given, wanted, sizeof given) == 0, "encoding only reads its fields");
}

#define WORD_IS(word, class, index, extension, predicate, base, reg, multiple) \
    word_is(__LINE__, word, class, index, extension, predicate, base, reg, multiple)

static void undefined(int line, uint32_t word)
{
    static const uint64_t zeros[8];
    memset(fields, 0x5A, sizeof fields);
    expect(line, "decoding", starshackle_decode(word, fields), fields, STARSHACKLE_UNDEFINED, zeros, 8);
}

/* The fields of A16F6000 with one entry changed. */
static uint64_t encode_with(size_t entry, uint64_t value)
{
    uint64_t given[8] = {10, 0, 0, 0, 0, 0, 0, 0};
    given[STARSHACKLE_FIELD_MULTIPLE] = (uint64_t)-2;
    given[entry] = value;
    return starshackle_encode(given, answer);
}

static void words(void)
{
    /* beside the classes: scaled bytes, doublewords in elements of 32 bits, 64-bit offsets with bits 22..21 as 10 and 11; and of narrow
       strided stores, bit 3 or 2 and bit 20 set, and loads */
    static const uint32_t beside[25] = {0xE4208000, 0xE420C000, 0xE420A000, 0xE4608000, 0xE460C000, 0xE5C08000,
                                        0xE5C0C000, 0xE5E08000, 0xE5E0C000, 0xE440A000, 0xE460A000, 0xE4C0A000,
                                        0xE4E0A000, 0xE540A000, 0xE560A000, 0xE5C0A000, 0xE5E0A000, 0xA1200008,
                                        0xA1602008, 0xA1208004, 0xA160A008, 0xA120C00C, 0xA1700000, 0xA1000000,
                                        0xA140A000};
    size_t i;
    WORD_IS(0xE5A08000, STARSHACKLE_CLASS_ST1D_32_UNPACKED_SCALED, 0, STARSHACKLE_EXTENSION_UXTW, 0, 0, 0, 0);
    WORD_IS(0xE5A0C000, STARSHACKLE_CLASS_ST1D_32_UNPACKED_SCALED, 0, STARSHACKLE_EXTENSION_SXTW, 0, 0, 0, 0);
    WORD_IS(0xE5808000, STARSHACKLE_CLASS_ST1D_32_UNPACKED_UNSCALED, 0, STARSHACKLE_EXTENSION_UXTW, 0, 0, 0, 0);
    WORD_IS(0xE5A0A000, STARSHACKLE_CLASS_ST1D_64_SCALED, 0, STARSHACKLE_EXTENSION_NONE, 0, 0, 0, 0);
    WORD_IS(0xE580A000, STARSHACKLE_CLASS_ST1D_64_UNSCALED, 0, 0, 0, 0, 0, 0);
    WORD_IS(0xE4008000, STARSHACKLE_CLASS_ST1B_32_UNPACKED, 0, 1, 0, 0, 0, 0);
    WORD_IS(0xE4408000, STARSHACKLE_CLASS_ST1B_32, 0, 1, 0, 0, 0, 0);
    WORD_IS(0xE400A000, STARSHACKLE_CLASS_ST1B_64, 0, 0, 0, 0, 0, 0);
    WORD_IS(0xA1206000, STARSHACKLE_CLASS_ST1D_STRIDED_TWO_SCALAR, 0, 0, 0, 0, 0, 0);
    WORD_IS(0xA120E000, STARSHACKLE_CLASS_ST1D_STRIDED_FOUR_SCALAR, 0, 0, 0, 0, 0, 0);
    WORD_IS(0xA1606000, STARSHACKLE_CLASS_ST1D_STRIDED_TWO_IMMEDIATE, 0, 0, 0, 0, 0, 0);
    WORD_IS(0xA160E000, STARSHACKLE_CLASS_ST1D_STRIDED_FOUR_IMMEDIATE, 0, 0, 0, 0, 0, 0);
    WORD_IS(0xE4202000, STARSHACKLE_CLASS_ST1Q, 0, 0, 0, 0, 0, 0);
    WORD_IS(0xE4A08000, STARSHACKLE_CLASS_ST1H_32_UNPACKED_SCALED, 0, 1, 0, 0, 0, 0);
    WORD_IS(0xE4808000, STARSHACKLE_CLASS_ST1H_32_UNPACKED_UNSCALED, 0, 1, 0, 0, 0, 0);
    WORD_IS(0xE4A0A000, STARSHACKLE_CLASS_ST1H_64_SCALED, 0, 0, 0, 0, 0, 0);
    WORD_IS(0xE480A000, STARSHACKLE_CLASS_ST1H_64_UNSCALED, 0, 0, 0, 0, 0, 0);
    WORD_IS(0xE4E08000, STARSHACKLE_CLASS_ST1H_32_SCALED, 0, 1, 0, 0, 0, 0);
    WORD_IS(0xE4C08000, STARSHACKLE_CLASS_ST1H_32_UNSCALED, 0, 1, 0, 0, 0, 0);
    WORD_IS(0xE5208000, STARSHACKLE_CLASS_ST1W_32_UNPACKED_SCALED, 0, 1, 0, 0, 0, 0);
    WORD_IS(0xE5008000, STARSHACKLE_CLASS_ST1W_32_UNPACKED_UNSCALED, 0, 1, 0, 0, 0, 0);
    WORD_IS(0xE520A000, STARSHACKLE_CLASS_ST1W_64_SCALED, 0, 0, 0, 0, 0, 0);
    WORD_IS(0xE500A000, STARSHACKLE_CLASS_ST1W_64_UNSCALED, 0, 0, 0, 0, 0, 0);
    WORD_IS(0xE5608000, STARSHACKLE_CLASS_ST1W_32_SCALED, 0, 1, 0, 0, 0, 0);
    WORD_IS(0xE5408000, STARSHACKLE_CLASS_ST1W_32_UNSCALED, 0, 1, 0, 0, 0, 0);
    WORD_IS(0xA1200000, STARSHACKLE_CLASS_ST1B_STRIDED_TWO_SCALAR, 0, 0, 0, 0, 0, 0);
    WORD_IS(0xA1208000, STARSHACKLE_CLASS_ST1B_STRIDED_FOUR_SCALAR, 0, 0, 0, 0, 0, 0);
    WORD_IS(0xA1600000, STARSHACKLE_CLASS_ST1B_STRIDED_TWO_IMMEDIATE, 0, 0, 0, 0, 0, 0);
    WORD_IS(0xA1608000, STARSHACKLE_CLASS_ST1B_STRIDED_FOUR_IMMEDIATE, 0, 0, 0, 0, 0, 0);
    WORD_IS(0xA1202000, STARSHACKLE_CLASS_ST1H_STRIDED_TWO_SCALAR, 0, 0, 0, 0, 0, 0);
    WORD_IS(0xA120A000, STARSHACKLE_CLASS_ST1H_STRIDED_FOUR_SCALAR, 0, 0, 0, 0, 0, 0);
    WORD_IS(0xA1602000, STARSHACKLE_CLASS_ST1H_STRIDED_TWO_IMMEDIATE, 0, 0, 0, 0, 0, 0);
    WORD_IS(0xA160A000, STARSHACKLE_CLASS_ST1H_STRIDED_FOUR_IMMEDIATE, 0, 0, 0, 0, 0, 0);
    WORD_IS(0xA1204000, STARSHACKLE_CLASS_ST1W_STRIDED_TWO_SCALAR, 0, 0, 0, 0, 0, 0);
    WORD_IS(0xA120C000, STARSHACKLE_CLASS_ST1W_STRIDED_FOUR_SCALAR, 0, 0, 0, 0, 0, 0);
    WORD_IS(0xA1604000, STARSHACKLE_CLASS_ST1W_STRIDED_TWO_IMMEDIATE, 0, 0, 0, 0, 0, 0);
    WORD_IS(0xA160C000, STARSHACKLE_CLASS_ST1W_STRIDED_FOUR_IMMEDIATE, 0, 0, 0, 0, 0, 0);
    /* every field at its largest, and all of them different where they can be */
    WORD_IS(0xE5BFDFFF, 1, 31, 2, 7, 31, 31, 0);
    WORD_IS(0xE44380C5, 6, 3, 1, 0, 6, 5, 0);
    WORD_IS(0xA12A6C97, 8, 10, 0, 3, 4, 23, 0);
    WORD_IS(0xA13FFFF3, 9, 31, 0, 7, 31, 19, 0);
    WORD_IS(0xE4363D22, 12, 22, 0, 7, 9, 2, 0);
    WORD_IS(0xE4FFDFFF, 17, 31, 2, 7, 31, 31, 0);
    WORD_IS(0xE49ABC85, 16, 26, 0, 7, 4, 5, 0);
    WORD_IS(0xE54380C5, 24, 3, 1, 0, 6, 5, 0);
    WORD_IS(0xA12A0C97, 25, 10, 0, 3, 4, 23, 0);
    WORD_IS(0xA13F9FF3, 26, 31, 0, 7, 31, 19, 0);
    WORD_IS(0xA1673C37, 31, 0, 0, 7, 1, 23, 14);
    WORD_IS(0xA168C000, 36, 0, 0, 0, 0, 0, -32);
    /* document 01's cases */
    WORD_IS(0xA16F6000, 10, 0, 0, 0, 0, 0, -2);
    WORD_IS(0xA168E000, 11, 0, 0, 0, 0, 0, -32);
    WORD_IS(0xA167E000, 11, 0, 0, 0, 0, 0, 28);
    WORD_IS(0xA1206010, 8, 0, 0, 0, 0, 16, 0);
    undefined(__LINE__, 0xA120E004);
    undefined(__LINE__, 0xA1206008);
    for (i = 0; i < 25; i++)
        undefined(__LINE__, beside[i]);
    undefined(__LINE__, 0);
    undefined(__LINE__, 0xFFFFFFFF);

    ANSWERS(encode_with(0, 10), STARSHACKLE_DONE, 0, 0, 0, 0, 0xA16F6000);
    REFUSED(encode_with(0, 0), STARSHACKLE_FIELDS);
    REFUSED(encode_with(0, 37), STARSHACKLE_FIELDS);
    ANSWERS(encode_with(0, 27), STARSHACKLE_DONE, 0, 0, 0, 0, 0xA16F0000);
    REFUSED(encode_with(0, 28), STARSHACKLE_FIELDS); /* a multiple of four registers is one of 4 */
    REFUSED(encode_with(0, UINT64_C(10) + 256), STARSHACKLE_FIELDS);
    REFUSED(encode_with(0, (UINT64_C(1) << 32) + 10), STARSHACKLE_FIELDS);
    REFUSED(encode_with(1, 1), STARSHACKLE_FIELDS); /* a field that the class lacks */
    REFUSED(encode_with(2, 1), STARSHACKLE_FIELDS); /* an extension where there is none */
    REFUSED(encode_with(3, 8), STARSHACKLE_FIELDS);
    REFUSED(encode_with(4, 32), STARSHACKLE_FIELDS);
    REFUSED(encode_with(4, UINT64_C(1) << 32), STARSHACKLE_FIELDS);
    REFUSED(encode_with(5, 8), STARSHACKLE_FIELDS);  /* a first register that the class can't name */
    REFUSED(encode_with(6, 1), STARSHACKLE_FIELDS);  /* a multiple that it can't name */
    REFUSED(encode_with(6, 16), STARSHACKLE_FIELDS);
    REFUSED(encode_with(7, 1), STARSHACKLE_FIELDS);
    {
        static const uint64_t none[8] = {1, 0, 0, 0, 0, 0, 0, 0}, third[8] = {1, 0, 3, 0, 0, 0, 0, 0};
        REFUSED(starshackle_encode(none, answer), STARSHACKLE_FIELDS); /* no extension where there is one */
        REFUSED(starshackle_encode(third, answer), STARSHACKLE_FIELDS);
    }
}

/* ---- the whole example: class 6, VB 16, base 1000h, offsets 0, 1, 1, 5, bytes A1 A2 A3 A4, all active */

static const uint32_t SCATTER = 0xE4428001; /* st1b { z1.s }, p0, [x0, z2.s, uxtw] */

static const uint8_t EXAMPLE[31] = {
    0x50, 0x52, 0x00, 0x10, 0, 0, 0, 0, 0, 0, 2, 0, 0xA1, 0xA3, /* run 0 */
    0x50, 0x52, 0x05, 0x10, 0, 0, 0, 0, 0, 0, 1, 0, 0xA4,       /* run 1 */
    0x50, 0x45, 2, 0};

static void scatter_machine(const uint64_t *offsets, const uint64_t *bytes)
{
    size_t e;
    machine(16, STARSHACKLE_FLAG_SVE, 0x1000, 8);
    m.x[0] = 0x1000;
    all_active();
    for (e = 0; e < 4; e++) {
        set_z(1, e, 4, bytes[e]);
        set_z(2, e, 4, offsets[e]);
    }
}

static const uint64_t OFFSETS[4] = {0, 1, 1, 5}, BYTES[4] = {0xA1, 0xA2, 0xA3, 0xA4};
static const uint64_t OFFSETS2[4] = {1, 0, 5, 5}, BYTES2[4] = {0xA3, 0xA1, 0x00, 0xA4};

static void expect_example_memory(void)
{
    expect_memory(0, 0xA1);
    expect_memory(1, 0xA3);
    expect_memory(5, 0xA4);
}

static void expect_example(void)
{
    expect_example_memory();
    expect_patch(0, EXAMPLE, sizeof EXAMPLE);
}

/* `masked_length` and `masked_steps` are the length of the patch and the steps without element 1. */
static void whole_example(const uint64_t *offsets, const uint64_t *bytes, uint64_t steps, size_t masked_length, uint64_t masked_steps)
{
    size_t e;
    scatter_machine(offsets, bytes);
    STORES(store(SCATTER, MOST_PATCH), STARSHACKLE_DONE, 0, 0, 4, 4, sizeof EXAMPLE, steps);
    expect_example();
    CHECK(untouched());
    ANSWERS(starshackle_judge(patch, sizeof EXAMPLE, answer), STARSHACKLE_DONE, 0, 0, 2, 3, 0);
    CHECK(untouched());

    for (e = 0; e < 4; e++)
        ANSWERS(element(SCATTER, e), STARSHACKLE_DONE, 1, 0x1000 + offsets[e], 16 + 4 * e, 1, 4);
    ANSWERS(element(SCATTER, 4), STARSHACKLE_DONE, 0, 0, 0, 0, 4);
    ANSWERS(element(SCATTER, UINT64_MAX), STARSHACKLE_DONE, 0, 0, 0, 0, 4);
    m.p[0] = 0xFF & ~0x10; /* element 1's bit; the bits above an element's first mean nothing */
    m.p[1] = 0x11;
    ANSWERS(element(SCATTER, 1), STARSHACKLE_DONE, 0, 0x1000 + offsets[1], 16 + 4, 1, 4);
    ANSWERS(element(SCATTER, 3), STARSHACKLE_DONE, 1, 0x1000 + offsets[3], 16 + 12, 1, 4);
    STORES(store(SCATTER, MOST_PATCH), STARSHACKLE_DONE, 0, 0, 3, 3, masked_length, masked_steps);
}

static void example(void)
{
    WORD_IS(SCATTER, 6, 2, 1, 0, 0, 1, 0);
    whole_example(OFFSETS, BYTES, 3, sizeof EXAMPLE, 2);
    whole_example(OFFSETS2, BYTES2, 4, sizeof EXAMPLE - 1, 3);
}

/* The patch is the same whatever the window holds, and applying it there leaves what the store leaves. */
static void fillings(void)
{
    static const uint8_t bytes[] = {0x00, 0xA3, 0xFF};
    size_t i;
    for (i = 0; i < sizeof bytes; i++) {
        scatter_machine(OFFSETS, BYTES);
        refill(bytes[i]);
        STORES(store(SCATTER, MOST_PATCH), STARSHACKLE_DONE, 0, 0, 4, 4, sizeof EXAMPLE, 3);
        expect_example();
        CHECK(untouched());
        refill(bytes[i]);
        ANSWERS(apply(patch, sizeof EXAMPLE), STARSHACKLE_DONE, 0, 0, 2, 3, 0);
        expect_example_memory();
        CHECK(untouched());
    }
}

/* The patch buffer: too short, exact, longer. */
static void rooms(void)
{
    size_t room;
    scatter_machine(OFFSETS, BYTES);
    for (room = 0; room < sizeof EXAMPLE; room++) {
        STORE_REFUSED(store(SCATTER, room), STARSHACKLE_NO_ROOM);
        CHECK(untouched());
    }
    for (room = sizeof EXAMPLE; room < sizeof EXAMPLE + 3; room++) {
        fill();
        STORES(store(SCATTER, room), STARSHACKLE_DONE, 0, 0, 4, 4, sizeof EXAMPLE, 3);
        expect_example();
        CHECK(untouched());
    }
}

/* ---- strided and quadword stores */

/* What stands behind the run of a patch that has one. */
static const uint8_t ONE_RUN[4] = {0x50, 0x45, 1, 0};

static void strided(void)
{
    /* A1206010: registers 16 and 24; X1 is the index */
    const uint32_t word = 0xA1216010;
    static const uint8_t wanted[4 + 12 + 24] = {
        0x50, 0x52, 0x10, 0x20, 0, 0, 0, 0, 0, 0, 24, 0, 0x11, 0x11, 0x11, 0x11, 0x11, 0x11, 0x11, 0x11,
        0x22, 0x22, 0x22, 0x22, 0x22, 0x22, 0x22, 0x22, 0x33, 0x33, 0x33, 0x33, 0x33, 0x33, 0x33, 0x33, 0x50, 0x45, 1, 0};
    size_t i;
    WORD_IS(word, 8, 1, 0, 0, 0, 16, 0);
    machine(16, STARSHACKLE_FLAG_SME2 | STARSHACKLE_FLAG_STREAMING, 0x2010, 24);
    m.x[0] = 0x2000;
    m.x[1] = 2;
    set_counter(8, 0x0038); /* three elements of 64 bits */
    set_z(16, 0, 8, UINT64_C(0x1111111111111111));
    set_z(16, 1, 8, UINT64_C(0x2222222222222222));
    set_z(24, 0, 8, UINT64_C(0x3333333333333333));
    set_z(24, 1, 8, UINT64_C(0x4444444444444444));
    STORE_REFUSED(store(word, sizeof wanted - 1), STARSHACKLE_NO_ROOM);
    CHECK(untouched());
    STORES(store(word, sizeof wanted), STARSHACKLE_DONE, 0, 0, 3, 24, sizeof wanted, 1);
    expect_patch(0, wanted, sizeof wanted);
    for (i = 0; i < 24; i++)
        expect_memory(i, wanted[12 + i]);
    CHECK(untouched());
    ANSWERS(element(word, 2), STARSHACKLE_DONE, 1, 0x2020, 24 * 16, 8, 4);
    ANSWERS(element(word, 3), STARSHACKLE_DONE, 0, 0x2028, 24 * 16 + 8, 8, 4);

    /* document 01: A16F6000 with base 1000h starts at 0FE0h */
    m.x[0] = 0x1000;
    ANSWERS(element(0xA16F6000, 0), STARSHACKLE_DONE, 1, 0x0FE0, 0, 8, 4);
    set_counter(8, 0x8038);
    for (i = 0; i < 4; i++)
        ANSWERS(element(0xA16F6000, i), STARSHACKLE_DONE, i == 3, 0x0FE0 + 8 * i, i / 2 * 8 * 16 + i % 2 * 8, 8, 4);
    set_counter(8, 0x8000); /* nothing is active */
    m.length = 0;
    STORES(store(word, MOST_PATCH), STARSHACKLE_DONE, 0, 0, 0, 0, 4, 0);
}

/* The elements of two registers at VB 16 that are active under a counter, as bits; and the store's own count of them. */
static void active_are(int line, unsigned counter, unsigned wanted)
{
    const uint32_t word = 0xA1606000; /* st1d { z0.d, z8.d }, pn8, [x0] */
    unsigned active = 0;
    uint64_t e;
    machine(16, STARSHACKLE_FLAG_SME2 | STARSHACKLE_FLAG_STREAMING, 0, 32);
    set_counter(8, counter);
    for (e = 0; e < 4; e++) {
        check(line, element(word, e) == STARSHACKLE_DONE, "it has elements");
        active |= (unsigned)answer[0] << e;
    }
    check(line, active == wanted, "active elements");
    check(line, store(word, MOST_PATCH) == STARSHACKLE_DONE, "it is done");
    check(line, answer[2] == (active & 1) + (active >> 1 & 1) + (active >> 2 & 1) + (active >> 3), "how many are active");
    memset(answer, 0x5A, sizeof answer);
}

#define ACTIVE_ARE(counter, wanted) active_are(__LINE__, counter, wanted)

/* How many elements of a store are active, with its registers after one another at `base`. */
static uint64_t how_many(size_t vb, uint32_t word, unsigned counter)
{
    uint64_t active;
    machine(vb, STARSHACKLE_FLAG_SME2 | STARSHACKLE_FLAG_STREAMING, 0, 1024);
    set_counter(8, counter);
    CHECK(store(word, MOST_PATCH) == STARSHACKLE_DONE);
    active = answer[2];
    memset(answer, 0x5A, sizeof answer);
    return active;
}

static void counters(void)
{
    static const size_t lengths[5] = {16, 32, 64, 128, 256};
    const uint32_t two = 0xA1606000, four = 0xA160E000;
    unsigned i, bit;
    /* document 01's */
    ACTIVE_ARE(0x0018, 1);
    ACTIVE_ARE(0x8038, 8);
    ACTIVE_ARE(0x8000, 0);
    ACTIVE_ARE(0x0013, 3);
    ACTIVE_ARE(0x8008, 15);
    ACTIVE_ARE(0x8058, 0);
    /* document 02 (iii): "0418h over two doubleword registers makes element 0 active and no other" */
    ACTIVE_ARE(0x0418, 1);
    ACTIVE_ARE(0x8418, 14);
    ACTIVE_ARE(0x7F98, 1);
    ACTIVE_ARE(0x7F80, 0);
    for (bit = 7; bit < 15; bit++)
        ACTIVE_ARE(0x0018 | 1u << bit, 1);
    /* its highest bit is log2(4 * vb): with it alone the count is two registers, and the bits above it are ignored */
    for (i = 0; i < 5; i++) {
        const unsigned highest = 1u << (6 + i);
        CHECK(how_many(lengths[i], two, highest | 8) == lengths[i] / 4);
        CHECK(how_many(lengths[i], four, highest | 8) == lengths[i] / 4);
        CHECK(how_many(lengths[i], four, highest | 0x8008) == lengths[i] / 4);
        for (bit = 7 + i; bit < 15; bit++) {
            CHECK(how_many(lengths[i], four, 1u << bit | 0x0018) == 1);
            CHECK(how_many(lengths[i], four, 1u << bit | highest | 1) == lengths[i] / 4);
            CHECK(how_many(lengths[i], two, 1u << bit | 0x8018) == lengths[i] / 4 - 1);
        }
    }
}

static void quadword(void)
{
    const uint32_t word = 0xE4232041; /* st1q { z1.q }, p0, [z2.d, x3] */
    static const uint8_t head[12] = {0x50, 0x52, 0x20, 0x10, 0, 0, 0, 0, 0, 0, 16, 0};
    size_t i;
    WORD_IS(word, 12, 3, 0, 0, 2, 1, 0);
    machine(32, STARSHACKLE_FLAG_SVE2P1, 0x1000, 64);
    m.x[3] = (uint64_t)-16; /* addresses wrap */
    m.p[2] = 1;             /* element 1 alone, at bit 16 */
    set_z(2, 0, 8, 0x9999);
    set_z(2, 1, 8, 0x9999);
    set_z(2, 2, 8, 0x1030);
    set_z(2, 3, 8, 0x9999);
    for (i = 0; i < 16; i++)
        m.z[32 + 16 + i] = (uint8_t)(0xC0 + i);
    ANSWERS(element(word, 0), STARSHACKLE_DONE, 0, 0x9989, 32, 16, 2);
    ANSWERS(element(word, 1), STARSHACKLE_DONE, 1, 0x1020, 48, 16, 2);
    STORES(store(word, MOST_PATCH), STARSHACKLE_DONE, 0, 0, 1, 16, 12 + 16 + 4, 1);
    for (i = 0; i < 16; i++)
        expect_memory(0x20 + i, (uint8_t)(0xC0 + i));
    expect_patch(0, head, sizeof head);
    expect_patch(12, m.z + 32 + 16, 16);
    expect_patch(12 + 16, ONE_RUN, sizeof ONE_RUN);
    CHECK(untouched());
}

/* Halfwords out of words, at scaled offsets with a sign; and words out of doublewords, at scaled offsets past 2^64. */
static void narrow(void)
{
    const uint32_t halfwords = 0xE4E2C001; /* st1h { z1.s }, p0, [x0, z2.s, sxtw #1] */
    const uint32_t words = 0xE522A001;     /* st1w { z1.d }, p0, [x0, z2.d, lsl #2] */
    const uint64_t sve = STARSHACKLE_FLAG_SVE, streaming = STARSHACKLE_FLAG_STREAMING;
    static const uint64_t signed_offsets[4] = {0, 1, UINT64_C(0xFFFFFFFF), 3};
    static const uint64_t offsets[4] = {0, UINT64_C(0x4000000000000001), UINT64_C(0xFFFFFFFFFFFFFFFE), 3};
    static const uint64_t places[4] = {0, 1, (uint64_t)-1, 3}, word_places[4] = {0, 1, (uint64_t)-2, 3};
    size_t e, k;

    WORD_IS(halfwords, STARSHACKLE_CLASS_ST1H_32_SCALED, 2, STARSHACKLE_EXTENSION_SXTW, 0, 0, 1, 0);
    machine(16, sve, 0x0FF8, 16);
    m.x[0] = 0x1000;
    all_active();
    for (e = 0; e < 4; e++) {
        set_z(1, e, 4, 0xDEAD1110 + e);
        set_z(2, e, 4, signed_offsets[e]);
    }
    for (e = 0; e < 4; e++)
        ANSWERS(element(halfwords, e), STARSHACKLE_DONE, 1, 0x1000 + 2 * places[e], 16 + 4 * e, 2, 4);
    STORES(store(halfwords, MOST_PATCH), STARSHACKLE_DONE, 0, 0, 4, 8, 12 + 6 + 12 + 2 + 4, 3);
    for (e = 0; e < 4; e++) {
        expect_memory((size_t)(8 + 2 * places[e]), (uint8_t)(0x10 + e));
        expect_memory((size_t)(8 + 2 * places[e] + 1), 0x11);
    }
    fill();
    m.flags = sve | streaming;
    STORE_REFUSED(store(halfwords, MOST_PATCH), STARSHACKLE_ILLEGAL);
    m.flags = STARSHACKLE_FLAG_SME2 | STARSHACKLE_FLAG_SVE2P1;
    STORE_REFUSED(store(halfwords, MOST_PATCH), STARSHACKLE_UNDEFINED);
    CHECK(untouched());

    WORD_IS(words, STARSHACKLE_CLASS_ST1W_64_SCALED, 2, STARSHACKLE_EXTENSION_NONE, 0, 0, 1, 0);
    machine(32, sve | streaming | STARSHACKLE_FLAG_FA64, 0x0FF0, 32);
    m.x[0] = 0x1000;
    all_active();
    for (e = 0; e < 4; e++) {
        set_z(1, e, 8, UINT64_C(0xDEADDEAD11111110) + e);
        set_z(2, e, 8, offsets[e]);
    }
    for (e = 0; e < 4; e++)
        ANSWERS(element(words, e), STARSHACKLE_DONE, 1, 0x1000 + 4 * word_places[e], 32 + 8 * e, 4, 4);
    STORES(store(words, MOST_PATCH), STARSHACKLE_DONE, 0, 0, 4, 16, 12 + 4 + 12 + 8 + 12 + 4 + 4, 3);
    for (e = 0; e < 4; e++) {
        expect_memory((size_t)(16 + 4 * word_places[e]), (uint8_t)(0x10 + e));
        for (k = 1; k < 4; k++)
            expect_memory((size_t)(16 + 4 * word_places[e] + k), 0x11);
    }
    fill();
    m.length = 31;
    STORES(store(words, MOST_PATCH), STARSHACKLE_FAULT, 3, 0x100F, 0, 0, 0, 0);
    CHECK(untouched());
}

/* Four registers of VB 256 at address 0, with data of their own. */
static void four_registers(unsigned counter)
{
    size_t i;
    machine(256, STARSHACKLE_FLAG_SME2 | STARSHACKLE_FLAG_STREAMING, 0, STARSHACKLE_LARGEST_WINDOW);
    set_counter(8, counter);
    for (i = 0; i < sizeof m.z; i++)
        m.z[i] = (uint8_t)(i / 8);
}

/* Where byte `i` of four registers stands. */
static const uint8_t *of_four(size_t i)
{
    return m.z + i / 256 * 4 * 256 + i % 256;
}

/* All of four registers is one run, of which classes 1 to 24 have no longer patch. */
static void longest_run(uint32_t word, unsigned counter, size_t size)
{
    const size_t room = 1040;
    static const uint8_t head[12] = {0x50, 0x52, 0, 0, 0, 0, 0, 0, 0, 0, 0, 4};
    size_t i;
    four_registers(counter);
    STORE_REFUSED(store(word, room - 1), STARSHACKLE_NO_ROOM);
    CHECK(untouched());
    STORES(store(word, room), STARSHACKLE_DONE, 0, 0, 1024 / size, 1024, room, 1);
    expect_patch(0, head, sizeof head);
    for (i = 0; i < 1024; i++) {
        expect_memory(i, *of_four(i));
        expect_patch(12 + i, of_four(i), 1);
    }
    expect_patch(12 + 1024, ONE_RUN, sizeof ONE_RUN);
    CHECK(untouched());
    ANSWERS(starshackle_judge(patch, room, answer), STARSHACKLE_DONE, 0, 0, 1, 1024, 0);
    refill(0xEE);
    ANSWERS(apply(patch, room), STARSHACKLE_DONE, 0, 0, 1, 1024, 0);
    memcpy(memory_before + FENCE, patch + 12, 1024);
    CHECK(untouched());
}

/* Elements of `size` bytes under a counter of a wider size, `unit` bytes: one in each `unit` bytes, a run of its own. */
static void gaps(uint32_t word, size_t size, size_t unit)
{
    const size_t count = 1024 / unit, room = 4 + count * (12 + size);
    uint8_t head[12] = {0x50, 0x52}, trailer[4] = {0x50, 0x45};
    size_t i, k;
    four_registers(0x8000u | (unsigned)unit); /* all */
    STORE_REFUSED(store(word, room - 1), STARSHACKLE_NO_ROOM);
    CHECK(untouched());
    STORES(store(word, room), STARSHACKLE_DONE, 0, 0, count, count * size, room, count);
    head[10] = (uint8_t)size;
    for (i = 0; i < count; i++) {
        head[2] = (uint8_t)(i * unit), head[3] = (uint8_t)(i * unit / 256);
        expect_patch(i * (12 + size), head, sizeof head);
        for (k = 0; k < size; k++) {
            expect_memory(i * unit + k, *of_four(i * unit + k));
            expect_patch(i * (12 + size) + 12 + k, of_four(i * unit + k), 1);
        }
    }
    trailer[2] = (uint8_t)count, trailer[3] = (uint8_t)(count / 256);
    expect_patch(room - 4, trailer, sizeof trailer);
    CHECK(untouched());
    for (i = 0; i < 8; i++)
        ANSWERS(element(word, i), STARSHACKLE_DONE, i * size % unit == 0, i * size, i * size, size, 1024 / size);
    ANSWERS(starshackle_judge(patch, room, answer), STARSHACKLE_DONE, 0, 0, count, count * size, 0);
    memcpy(memory_area, memory_before, sizeof memory_area);
    ANSWERS(apply(patch, room), STARSHACKLE_DONE, 0, 0, count, count * size, 0);
    CHECK(untouched());
}

/* No patch of a store is longer than STARSHACKLE_LARGEST_STORE_PATCH: bytes of four registers at VB 256 reach it under a counter of
   halfwords. 1,040 bytes, which were enough before there were narrow strided stores, are too few. */
static void largest(void)
{
    const uint32_t bytes = 0xA1208000, halfwords = 0xA120A000, words = 0xA120C000, doublewords = 0xA120E000;
    CHECK(STARSHACKLE_LARGEST_STORE_PATCH == 6660);
    CHECK(STARSHACKLE_LARGEST_PATCH == 7172);
    longest_run(doublewords, 0x8008, 8);
    longest_run(doublewords, 0x8001, 8);
    longest_run(bytes, 0x8001, 1);
    longest_run(halfwords, 0x8001, 2);
    longest_run(halfwords, 0x8002, 2);
    longest_run(words, 0x8004, 4);
    gaps(bytes, 1, 2);
    gaps(bytes, 1, 4);
    gaps(bytes, 1, 8);
    gaps(halfwords, 2, 4);
    gaps(halfwords, 2, 8);
    gaps(words, 4, 8);
    four_registers(0x8002);
    STORE_REFUSED(store(bytes, 1040), STARSHACKLE_NO_ROOM);
    STORE_REFUSED(store(bytes, STARSHACKLE_LARGEST_STORE_PATCH - 1), STARSHACKLE_NO_ROOM);
    CHECK(untouched());
    STORES(store(bytes, STARSHACKLE_LARGEST_STORE_PATCH), STARSHACKLE_DONE, 0, 0, 512, 512, STARSHACKLE_LARGEST_STORE_PATCH, 512);
    /* the last active byte is 1022, and no other is outside */
    fill();
    m.length = 1022;
    STORES(store(bytes, MOST_PATCH), STARSHACKLE_FAULT, 1022, 1022, 0, 0, 0, 0);
    CHECK(untouched());
    m.length = 1023;
    STORES(store(bytes, MOST_PATCH), STARSHACKLE_DONE, 0, 0, 512, 512, STARSHACKLE_LARGEST_STORE_PATCH, 512);
}

/* "The scalar index and the step from element to element are the element's bytes .. the immediate displacement is unchanged" */
static void narrow_strided(void)
{
    size_t shift, size, k;
    for (shift = 0; shift < 4; shift++) {
        const uint32_t scalar = 0xA1210000 | (uint32_t)shift << 13, immediate = 0xA16F0000 | (uint32_t)shift << 13;
        size = (size_t)1 << shift;
        machine(16, STARSHACKLE_FLAG_SME2 | STARSHACKLE_FLAG_STREAMING, 0x1000, 64);
        m.x[0] = 0x1000;
        m.x[1] = 3;
        for (k = 0; k < 4; k++) {
            ANSWERS(element(scalar, k), STARSHACKLE_DONE, 0, 0x1000 + (3 + k) * size, k * size / 16 * 128 + k * size % 16, size,
                    32 / size);
            ANSWERS(element(immediate, k), STARSHACKLE_DONE, 0, 0x0FE0 + k * size, k * size / 16 * 128 + k * size % 16, size, 32 / size);
            ANSWERS(element(immediate | 0x8000, k), STARSHACKLE_DONE, 0, 0x0FC0 + k * size, k * size / 16 * 64 + k * size % 16, size,
                    64 / size);
        }
        m.flags = STARSHACKLE_FLAG_SVE | STARSHACKLE_FLAG_SVE2P1 | STARSHACKLE_FLAG_STREAMING | STARSHACKLE_FLAG_FA64;
        STORE_REFUSED(store(scalar, MOST_PATCH), STARSHACKLE_UNDEFINED);
        m.flags = STARSHACKLE_FLAG_SME2 | STARSHACKLE_FLAG_FA64;
        STORE_REFUSED(store(scalar, MOST_PATCH), STARSHACKLE_ILLEGAL);
    }
}

/* ---- steps */

/* Puts the offset of an element of `esize` bytes, in class 12 its address, into Z2. */
static void element_at(size_t esize, size_t e, uint64_t offset)
{
    if (esize < 8)
        set_z(2, e, esize, offset);
    else
        set_z(2, e * esize / 8, 8, offset);
}

static void set_active(size_t esize, size_t e, int active)
{
    m.p[e * esize / 8] = (uint8_t)active;
}

/* A whole register that is contiguous and active, ascending and descending; and none of it active. */
static void whole_register(size_t vb, uint32_t word, size_t esize, size_t size)
{
    const uint64_t room = STARSHACKLE_LARGEST_STORE_PATCH, length = 12 + vb / esize * size + 4;
    const size_t count = vb / esize;
    size_t e;
    machine(vb, STARSHACKLE_FLAG_SVE | STARSHACKLE_FLAG_SVE2P1, 0, 256);
    all_active();
    for (e = 0; e < count; e++)
        element_at(esize, e, e * size);
    STORES(store(word, room), STARSHACKLE_DONE, 0, 0, count, count * size, length, 1);
    for (e = 0; e < count; e++)
        element_at(esize, e, (count - 1 - e) * size);
    STORES(store(word, room), STARSHACKLE_DONE, 0, 0, count, count * size, length, count);
    memset(m.p, 0, sizeof m.p);
    STORES(store(word, room), STARSHACKLE_DONE, 0, 0, 0, 0, 4, 0);
}

static void whole_registers(size_t vb, uint32_t word, size_t registers)
{
    const size_t bytes = registers * vb;
    machine(vb, STARSHACKLE_FLAG_SME2 | STARSHACKLE_FLAG_STREAMING, 0, 1024);
    set_counter(8, 0x8008); /* all */
    STORES(store(word, MOST_PATCH), STARSHACKLE_DONE, 0, 0, bytes / 8, bytes, 12 + bytes + 4, 1);
    set_counter(8, 0x8018); /* all but the first */
    STORES(store(word, MOST_PATCH), STARSHACKLE_DONE, 0, 0, bytes / 8 - 1, bytes - 8, 12 + bytes - 8 + 4, 1);
    set_counter(8, 0x8000); /* none */
    STORES(store(word, MOST_PATCH), STARSHACKLE_DONE, 0, 0, 0, 0, 4, 0);
}

/* Four doublewords of class 4 at these offsets in a window of 64 bytes, and which of them are active. */
static void four(int line, uint64_t a, uint64_t b, uint64_t c, uint64_t d, unsigned active, uint64_t steps)
{
    const uint64_t offsets[4] = {a, b, c, d};
    size_t e;
    machine(32, STARSHACKLE_FLAG_SVE, UINT64_C(0xFFFFFFFFFFFFFFC0), 64);
    m.x[0] = m.base;
    for (e = 0; e < 4; e++) {
        element_at(8, e, offsets[e]);
        set_active(8, e, active >> e & 1);
    }
    check(line, store(0xE582A001, MOST_PATCH) == STARSHACKLE_DONE, "it is done");
    check(line, answer[5] == steps, "steps");
    memset(answer, 0x5A, sizeof answer);
}

#define FOUR(a, b, c, d, active, steps) four(__LINE__, a, b, c, d, active, steps)

static void steps(void)
{
    static const size_t lengths[5] = {16, 32, 64, 128, 256};
    size_t i;
    for (i = 0; i < 5; i++) {
        whole_register(lengths[i], 0xE582A001, 8, 8);          /* st1d { z1.d }, p0, [x0, z2.d] */
        whole_register(lengths[i], 0xE402A001, 8, 1);          /* st1b { z1.d }, p0, [x0, z2.d] */
        whole_register(lengths[i], 0xE482A001, 8, 2);          /* st1h { z1.d }, p0, [x0, z2.d] */
        whole_register(lengths[i], 0xE4C28001, 4, 2);          /* st1h { z1.s }, p0, [x0, z2.s, uxtw] */
        whole_register(lengths[i], 0xE502A001, 8, 4);          /* st1w { z1.d }, p0, [x0, z2.d] */
        whole_register(lengths[i], 0xE5428001, 4, 4);          /* st1w { z1.s }, p0, [x0, z2.s, uxtw] */
        whole_register(lengths[i], 0xE43F2041, 16, 16);        /* st1q { z1.q }, p0, [z2.d] */
        whole_registers(lengths[i], 0xA120E000 | 31 << 16, 4); /* st1d { z0.d, z4.d, z8.d, z12.d }, pn8, [x0] */
        whole_registers(lengths[i], 0xA1606000, 2);            /* st1d { z0.d, z8.d }, pn8, [x0] */
    }
    FOUR(0, 8, 16, 24, 15, 1);
    FOUR(32, 40, 48, 56, 15, 1);  /* up to 2^64 */
    FOUR(0, 8, 17, 25, 15, 2);    /* a gap of one byte */
    FOUR(0, 8, 15, 23, 15, 2);    /* an overlap of one byte */
    FOUR(8, 16, 0, 8, 15, 2);     /* a descending element */
    FOUR(56, 0, 8, 16, 15, 2);    /* from the window's end to its start */
    FOUR(0, 8, 16, 24, 13, 2);    /* an inactive lane */
    FOUR(0, 48, 8, 16, 13, 1);    /* one inside a stretch that goes on */
    FOUR(0, 8, 16, 24, 6, 1);     /* two outside of it */
    FOUR(0, 16, 32, 48, 15, 4);
}

/* ---- verdicts */

static void refused(int line, uint32_t word, uint64_t number, uint64_t e, uint64_t address)
{
    expect_answer(line, "storing", store(word, MOST_PATCH), number, e, address, 0, 0, 0, 0);
    check(line, untouched(), "memory and patch are as they came");
}

static void done(int line, uint32_t word, uint64_t elements, uint64_t bytes, uint64_t length, uint64_t steps)
{
    expect_answer(line, "storing", store(word, MOST_PATCH), STARSHACKLE_DONE, 0, 0, elements, bytes, length, steps);
    fill();
}

#define IS_REFUSED(word, number, e, address) refused(__LINE__, word, number, e, address)
#define IS_DONE(word, elements, bytes, length, steps) done(__LINE__, word, elements, bytes, length, steps)

static void refusals(void)
{
    static const size_t lengths[] = {0, 1, 15, 17, 24, 48, 255, 257, 512, SIZE_MAX};
    const uint64_t streaming = STARSHACKLE_FLAG_STREAMING;
    size_t i;

    scatter_machine(OFFSETS, BYTES);
    for (i = 0; i < sizeof lengths / sizeof *lengths; i++) {
        m.vb = lengths[i];
        IS_REFUSED(SCATTER, STARSHACKLE_LENGTH, 0, 0);
        REFUSED(element(SCATTER, 0), STARSHACKLE_LENGTH);
    }
    m.vb = 32; /* a length, but not that of the buffers */
    IS_REFUSED(SCATTER, STARSHACKLE_REGISTERS, 0, 0);
    m.vb = 16;
    for (i = 0; i < 4; i++) {
        m.z_len = 32 * 16 - (i == 0) + (i == 1);
        m.p_len = 2 * 16 - (i == 2) + (i == 3);
        IS_REFUSED(SCATTER, STARSHACKLE_REGISTERS, 0, 0);
        REFUSED(element(SCATTER, 0), STARSHACKLE_REGISTERS);
    }
    m.z_len = 32 * 16;
    m.p_len = 2 * 16;
    m.length = STARSHACKLE_LARGEST_WINDOW + 1;
    IS_REFUSED(SCATTER, STARSHACKLE_WINDOW, 0, 0);
    REFUSED(apply(EXAMPLE, sizeof EXAMPLE), STARSHACKLE_WINDOW);
    REFUSED(apply(EXAMPLE, 1), STARSHACKLE_WINDOW); /* before what is said of the patch */
    m.base = UINT64_C(0xFFFFFFFFFFFFFFF0);
    m.length = 17;
    IS_REFUSED(SCATTER, STARSHACKLE_WINDOW, 0, 0);
    REFUSED(apply(EXAMPLE, sizeof EXAMPLE), STARSHACKLE_WINDOW);
    m.length = 16;
    IS_REFUSED(SCATTER, STARSHACKLE_FAULT, 0, 0x1000);
    m.x[0] = UINT64_C(0xFFFFFFFFFFFFFFFA);
    IS_DONE(SCATTER, 4, 4, sizeof EXAMPLE, 3); /* offset 5 is the last address */
    m.x[0]++;
    IS_REFUSED(SCATTER, STARSHACKLE_FAULT, 3, 0); /* and here the first */

    scatter_machine(OFFSETS, BYTES);
    REFUSED(element(0xE4208000, 0), STARSHACKLE_UNDEFINED);
    IS_REFUSED(0xE4208000, STARSHACKLE_UNDEFINED, 0, 0);
    m.flags = ~UINT64_C(0) ^ STARSHACKLE_FLAG_SVE;
    IS_REFUSED(SCATTER, STARSHACKLE_UNDEFINED, 0, 0);
    ANSWERS(element(SCATTER, 0), STARSHACKLE_DONE, 1, 0x1000, 16, 1, 4); /* looks at no such flag */
    m.flags = ~UINT64_C(0) ^ STARSHACKLE_FLAG_SME2;
    IS_REFUSED(0xA1206000, STARSHACKLE_UNDEFINED, 0, 0);
    IS_REFUSED(SCATTER, STARSHACKLE_OVERLAP, 2, 0x1001); /* strict is among them */
    m.flags ^= STARSHACKLE_FLAG_STRICT;
    IS_DONE(SCATTER, 4, 4, sizeof EXAMPLE, 3);
    m.flags = ~UINT64_C(0) ^ STARSHACKLE_FLAG_SVE2P1;
    IS_REFUSED(0xE4202000, STARSHACKLE_UNDEFINED, 0, 0);
    m.flags = STARSHACKLE_FLAG_SVE | streaming;
    IS_REFUSED(SCATTER, STARSHACKLE_ILLEGAL, 0, 0);
    m.flags = STARSHACKLE_FLAG_SVE2P1 | streaming;
    IS_REFUSED(0xE4202000, STARSHACKLE_ILLEGAL, 0, 0);
    m.flags = STARSHACKLE_FLAG_SVE | streaming | STARSHACKLE_FLAG_FA64;
    IS_DONE(SCATTER, 4, 4, sizeof EXAMPLE, 3);
    m.flags = STARSHACKLE_FLAG_SME2 | STARSHACKLE_FLAG_FA64;
    IS_REFUSED(0xA1206000, STARSHACKLE_ILLEGAL, 0, 0);

    /* the same store from SP */
    scatter_machine(OFFSETS, BYTES);
    m.sp = 0x0FF8;
    m.base = 0x0FF8;
    m.flags = STARSHACKLE_FLAG_SVE | STARSHACKLE_FLAG_SP_CHECK_NONE_ACTIVE;
    IS_DONE(SCATTER | 31 << 5, 4, 4, sizeof EXAMPLE, 3);
    m.flags = STARSHACKLE_FLAG_SVE | STARSHACKLE_FLAG_SP_CHECK;
    IS_REFUSED(SCATTER | 31 << 5, STARSHACKLE_STACK, 0, 0);
    memset(m.p, 0, sizeof m.p);
    IS_DONE(SCATTER | 31 << 5, 0, 0, 4, 0);
    m.flags |= STARSHACKLE_FLAG_SP_CHECK_NONE_ACTIVE;
    IS_REFUSED(SCATTER | 31 << 5, STARSHACKLE_STACK, 0, 0);
    IS_DONE(SCATTER, 0, 0, 4, 0);
    m.sp = 0x1000;
    IS_DONE(SCATTER | 31 << 5, 0, 0, 4, 0);

    /* the lowest active element outside the window; nothing is written, though others are inside */
    scatter_machine(OFFSETS, BYTES);
    m.length = 5;
    IS_REFUSED(SCATTER, STARSHACKLE_FAULT, 3, 0x1005);
    m.base = 0x1001;
    IS_REFUSED(SCATTER, STARSHACKLE_FAULT, 0, 0x1000);
    m.length = 0;
    IS_REFUSED(SCATTER, STARSHACKLE_FAULT, 0, 0x1000);
    STORES(store(SCATTER, 0), STARSHACKLE_FAULT, 0, 0x1000, 0, 0, 0, 0); /* before what is said of the room */
    CHECK(untouched());
}

/* ---- stores that hit a byte twice */

/* Elements at these two offsets, the second with this number, and with all others off, in a store that is strict. */
static void pair(size_t esize, size_t e, uint64_t first, uint64_t second)
{
    machine(256, STARSHACKLE_FLAG_SVE | STARSHACKLE_FLAG_SVE2P1 | STARSHACKLE_FLAG_STRICT, 0x1000, 64);
    m.x[0] = 0x1000;
    element_at(esize, 0, first);
    element_at(esize, e, second);
    set_active(esize, 0, 1);
    m.p[e * esize / 8] |= (uint8_t)(1 << e * esize % 8);
}

/* Element e at this distance from element 0, below it and above it. */
static void distance(int line, uint32_t word, size_t esize, size_t e, uint64_t size, uint64_t apart)
{
    const uint64_t room = STARSHACKLE_LARGEST_STORE_PATCH;
    int i;
    for (i = 0; i < 2; i++) {
        pair(esize, e, i ? 16 : 16 + apart, i ? 16 + apart : 16);
        if (apart < size) {
            refused(line, word, STARSHACKLE_OVERLAP, e, 0x1010 + (i ? apart : 0));
            expect_answer(line, "storing", store(word, 0), STARSHACKLE_OVERLAP, e, 0x1010 + (i ? apart : 0), 0, 0, 0, 0);
            check(line, untouched(), "memory and patch are as they came");
            m.flags ^= STARSHACKLE_FLAG_STRICT;
            done(line, word, 2, 2 * size, 12 + size + apart + 4, 2);
        } else {
            expect_answer(line, "storing", store(word, room), STARSHACKLE_DONE, 0, 0, 2, 2 * size,
                          (apart > size ? 24 : 12) + 2 * size + 4, apart > size || !i ? 2 : 1);
            fill();
        }
    }
}

static void overlaps(void)
{
    static const uint32_t words[] = {0xE402A001, 0xE4428001, 0xE482A001, 0xE4C28001, 0xE502A001, 0xE5428001, 0xE582A001, 0xE4202041};
    static const size_t esizes[] = {8, 4, 8, 4, 8, 4, 8, 16};
    static const uint64_t sizes[] = {1, 1, 2, 2, 4, 4, 8, 16};
    size_t i, e;
    uint64_t apart;
    for (i = 0; i < 8; i++)
        for (e = 1; e < 256 / esizes[i]; e += e < 3 ? 1 : 4)
            for (apart = 0; apart < sizes[i] + 2; apart++)
                distance(__LINE__, words[i], esizes[i], e, sizes[i], apart);

    pair(8, 1, 0, 60); /* a fault comes first */
    element_at(8, 2, 4);
    set_active(8, 2, 1);
    IS_REFUSED(0xE582A001, STARSHACKLE_FAULT, 1, 0x1040);
    element_at(8, 1, 56);
    IS_REFUSED(0xE582A001, STARSHACKLE_OVERLAP, 2, 0x1004);
    set_active(8, 2, 0);
    IS_DONE(0xE582A001, 2, 16, 44, 2);
}

/* ---- the byte that a fault names */

static const uint32_t ST1B = 0xE402A001;      /* st1b { z1.d }, p0, [x0, z2.d] */
static const uint32_t ST1H = 0xE4C28001;      /* st1h { z1.s }, p0, [x0, z2.s, uxtw] */
static const uint32_t ST1W = 0xE502A001;      /* st1w { z1.d }, p0, [x0, z2.d] */
static const uint32_t ST1D = 0xE582A001;      /* st1d { z1.d }, p0, [x0, z2.d] */
static const uint32_t STRIDED = 0xA1606000;   /* st1d { z0.d, z8.d }, pn8, [x0] */
static const uint32_t STRIDED_B = 0xA1608000; /* st1b { z0.b, z4.b, z8.b, z12.b }, pn8, [x0] */
static const uint32_t STRIDED_H = 0xA1602000; /* st1h { z0.h, z8.h }, pn8, [x0] */
static const uint32_t STRIDED_W = 0xA160C000; /* st1w { z0.s, z4.s, z8.s, z12.s }, pn8, [x0] */
static const uint32_t ST1Q = 0xE43F2041;      /* st1q { z1.q }, p0, [z2.d] */

/* Element 0 alone is active and lies at `first`, over a window of `length` bytes at `base`. It keeps its first address. */
static void place(int line, uint32_t word, uint64_t first, uint64_t base, size_t length)
{
    machine(16, STARSHACKLE_FLAG_SVE | STARSHACKLE_FLAG_SME2 | STARSHACKLE_FLAG_SVE2P1, base, length);
    m.flags |= STARSHACKLE_FLAG_STREAMING | STARSHACKLE_FLAG_FA64;
    m.p[0] = 1;
    set_counter(8, 0x0018);
    if (word == ST1Q)
        set_z(2, 0, 8, first);
    else
        m.x[0] = first;
    check(line, element(word, 0) == STARSHACKLE_DONE && answer[0] == 1 && answer[1] == first, "its first address");
    check(line, element(word, 1) == STARSHACKLE_DONE && answer[0] == 0, "the next isn't active");
    memset(answer, 0x5A, sizeof answer);
}

static void fault_at(int line, uint32_t word, uint64_t first, uint64_t base, size_t length, uint64_t address)
{
    place(line, word, first, base, length);
    refused(line, word, STARSHACKLE_FAULT, 0, address);
}

#define FAULT_AT(word, first, base, length, address) fault_at(__LINE__, word, first, base, length, address)

/* Every place around windows of up to two elements and more, looked through byte by byte. */
static void every_place(uint32_t word, uint64_t size)
{
    uint64_t length, n, k;
    size_t i;
    for (length = 0; length < 2 * size + 2; length++) {
        const uint64_t bases[5] = {0, 1, 0x1000, (uint64_t)-1 - length, (uint64_t)0 - length};
        for (i = 0; i < 5; i++) {
            for (n = 0; n < length + 4 * size; n++) {
                const uint64_t first = bases[i] + n - 2 * size;
                for (k = 0; k < size && first + k - bases[i] < length; k++)
                    continue;
                if (k < size) {
                    FAULT_AT(word, first, bases[i], (size_t)length, first + k);
                } else {
                    place(__LINE__, word, first, bases[i], (size_t)length);
                    IS_DONE(word, 1, size, 12 + size + 4, 1);
                }
            }
        }
    }
}

static void faults(void)
{
    const uint32_t words[9] = {ST1B, ST1H, ST1W, ST1D, STRIDED, STRIDED_B, STRIDED_H, STRIDED_W, ST1Q};
    static const uint64_t sizes[9] = {1, 2, 4, 8, 8, 1, 2, 4, 16};
    const uint64_t top = UINT64_C(0xFFFFFFFFFFFFFFF0);
    uint64_t k;
    size_t i;

    /* document 02 (ii): a doubleword at FFFFFFFFFFFFFFFCh over a 16-byte window ending at 2^64 */
    FAULT_AT(ST1D, UINT64_C(0xFFFFFFFFFFFFFFFC), top, 16, 0);
    FAULT_AT(STRIDED, UINT64_C(0xFFFFFFFFFFFFFFFC), top, 16, 0);
    for (i = 0; i < 9; i++) {
        FAULT_AT(words[i], 0x1000 - sizes[i], 0x1000, 64, 0x1000 - sizes[i]); /* below the window */
        FAULT_AT(words[i], 0x1040, 0x1000, 64, 0x1040);                       /* behind it */
        FAULT_AT(words[i], 64, 0, 64, 64);
        FAULT_AT(words[i], 0, top, 16, 0);
        FAULT_AT(words[i], 0x1000, 0x1000, 0, 0x1000); /* no window */
        FAULT_AT(words[i], 0, 0, 0, 0);
        for (k = 1; k < sizes[i]; k++) {
            FAULT_AT(words[i], 0x1000 - k, 0x1000, 64, 0x1000 - k); /* from below into it */
            FAULT_AT(words[i], 0x1040 - k, 0x1000, 64, 0x1040);     /* from inside out of it */
            FAULT_AT(words[i], 64 - k, 0, 64, 64);
            FAULT_AT(words[i], 0 - k, top, 16, 0);   /* and past 2^64 */
            FAULT_AT(words[i], 0 - k, 0, 64, 0 - k); /* past 2^64 into it */
            if (k + 1 < sizes[i])
                FAULT_AT(words[i], 0x1000 - k, 0x1000, sizes[i] - k - 1, 0x1000 - k); /* over both its ends */
        }
        every_place(words[i], sizes[i]);
    }
}

/* ---- patches */

/* The example with one byte changed. */
static const uint8_t *changed(size_t index, uint8_t byte)
{
    static uint8_t bytes[sizeof EXAMPLE];
    memcpy(bytes, EXAMPLE, sizeof EXAMPLE);
    bytes[index] = byte;
    return bytes;
}

static void bad_patch(int line, const uint8_t *bytes, size_t length, uint64_t runs, uint64_t offset)
{
    expect_answer(line, "judging", starshackle_judge(bytes, length, answer), STARSHACKLE_BAD_PATCH, runs, offset, 0, 0, 0, UNWRITTEN);
    expect_answer(line, "applying", apply(bytes, length), STARSHACKLE_BAD_PATCH, 0, 0, 0, 0, 0, UNWRITTEN);
    check(line, untouched(), "memory is as it came");
}

#define BAD_PATCH(bytes, length, runs, offset) bad_patch(__LINE__, bytes, length, runs, offset)

/* Makes a patch of so many runs of so many bytes at every 4th address from 1000h on, and tells its length. */
static size_t runs_of(size_t runs, size_t bytes)
{
    size_t i, k;
    uint8_t *at = patch;
    for (i = 0; i < runs; i++) {
        const size_t start = 0x1000 + 4 * i;
        memset(at, 0, 12);
        at[0] = 0x50, at[1] = 0x52, at[2] = (uint8_t)start, at[3] = (uint8_t)(start >> 8), at[10] = (uint8_t)bytes;
        for (k = 0; k < bytes; k++)
            at[12 + k] = (uint8_t)(i + 3 * k + 1);
        at += 12 + bytes;
    }
    at[0] = 0x50, at[1] = 0x45, at[2] = (uint8_t)runs, at[3] = (uint8_t)(runs >> 8);
    return (size_t)(at + 4 - patch);
}

static void patches(void)
{
    static const uint8_t EMPTY[4] = {0x50, 0x45, 0, 0};
    static const uint8_t TOP[17] = {0x50, 0x52, 0xFF, 0xFF, 0xFF, 0xFF, 0xFF, 0xFF, 0xFF, 0xFF, 1, 0, 0x77, 0x50, 0x45, 1, 0};
    static const uint8_t PAST[18] = {0x50, 0x52, 0xFF, 0xFF, 0xFF, 0xFF, 0xFF, 0xFF, 0xFF, 0xFF, 2, 0, 0x77, 0x78, 0x50, 0x45, 1, 0};
    uint8_t longer[sizeof EXAMPLE + 1];
    size_t length, i;

    machine(16, 0, 0x1000, 8);
    for (length = 0; length < sizeof EXAMPLE; length++)
        BAD_PATCH(EXAMPLE, length, (length >= 14) + (length >= 27), length < 14 ? 0 : length < 27 ? 14 : 27);
    memcpy(longer, EXAMPLE, sizeof EXAMPLE);
    longer[sizeof EXAMPLE] = 0;
    BAD_PATCH(longer, sizeof longer, 2, 27);
    BAD_PATCH(changed(0, 0x51), sizeof EXAMPLE, 0, 0);
    BAD_PATCH(changed(10, 0), sizeof EXAMPLE, 0, 0);     /* an empty run */
    BAD_PATCH(changed(16, 0x02), sizeof EXAMPLE, 1, 14); /* no address between the runs */
    BAD_PATCH(changed(17, 0x0F), sizeof EXAMPLE, 1, 14); /* starts descend */
    BAD_PATCH(changed(29, 3), sizeof EXAMPLE, 2, 27);    /* the number of runs */
    BAD_PATCH(PAST, sizeof PAST, 0, 0);

    ANSWERS(starshackle_judge(EMPTY, sizeof EMPTY, answer), STARSHACKLE_DONE, 0, 0, 0, 0, 0);
    ANSWERS(apply(EMPTY, sizeof EMPTY), STARSHACKLE_DONE, 0, 0, 0, 0, 0);
    CHECK(untouched());

    m.length = 5;
    ANSWERS(apply(EXAMPLE, sizeof EXAMPLE), STARSHACKLE_OUTSIDE, 1, 0x1005, 0, 0, 0);
    m.base = 0x1001;
    ANSWERS(apply(EXAMPLE, sizeof EXAMPLE), STARSHACKLE_OUTSIDE, 0, 0x1000, 0, 0, 0);
    m.length = 0;
    ANSWERS(apply(TOP, sizeof TOP), STARSHACKLE_OUTSIDE, 0, UINT64_MAX, 0, 0, 0);
    CHECK(untouched());
    m.base = UINT64_MAX;
    m.length = 1;
    ANSWERS(apply(TOP, sizeof TOP), STARSHACKLE_DONE, 0, 0, 1, 1, 0);
    expect_memory(0, 0x77);
    CHECK(untouched());

    /* the largest: 512 runs of 2 bytes, at every 4th address from 1000h on */
    machine(16, 0, 0x1000, 512 * 4);
    length = runs_of(512, 2);
    CHECK(length == MOST_PATCH);
    for (i = 0; i < 512; i++) {
        expect_memory(4 * i, (uint8_t)(i + 1));
        expect_memory(4 * i + 1, (uint8_t)(i + 4));
    }
    expect_patch(0, patch, MOST_PATCH);
    ANSWERS(starshackle_judge(patch, MOST_PATCH, answer), STARSHACKLE_DONE, 0, 0, 512, 1024, 0);
    ANSWERS(apply(patch, MOST_PATCH), STARSHACKLE_DONE, 0, 0, 512, 1024, 0);
    CHECK(untouched());

    /* 64, 65 and 512 runs are allowed, 513 aren't; the number of runs is in two bytes */
    for (i = 0; i < 4; i++) {
        static const size_t counts[4] = {64, 65, 511, 512};
        machine(16, 0, 0x1000, 512 * 4);
        length = runs_of(counts[i], 1);
        ANSWERS(starshackle_judge(patch, length, answer), STARSHACKLE_DONE, 0, 0, counts[i], counts[i], 0);
        ANSWERS(apply(patch, length), STARSHACKLE_DONE, 0, 0, counts[i], counts[i], 0);
    }
    machine(16, 0, 0x1000, 513 * 4);
    length = runs_of(513, 1);
    expect_patch(0, patch, length);
    BAD_PATCH(patch, length, 512, 512 * 13);
    length = runs_of(512, 1);
    patch[length - 1] = 0;
    expect_patch(0, patch, MOST_PATCH);
    BAD_PATCH(patch, length, 512, 512 * 13);
}

/* ---- two patches */

/* A list with numbers before and behind it that no call may touch. */
enum { MOST_LIST = STARSHACKLE_ENTRY_NUMBERS * STARSHACKLE_MOST_DIFFERENCES };

static uint64_t list_area[FENCE + MOST_LIST + FENCE], list_before[FENCE + MOST_LIST + FENCE];
static uint64_t *const list = list_area + FENCE;

static void fill_list(void)
{
    size_t i;
    for (i = 0; i < sizeof list_area / sizeof *list_area; i++)
        list_area[i] = UINT64_C(0x0123456789ABCDEF) * (i + 1);
    memcpy(list_before, list_area, sizeof list_area);
}

/* An entry that is expected, so that `list_untouched` compares the rest too. */
static void expect_entry(size_t number, uint64_t address, uint64_t first, uint64_t second)
{
    uint64_t *const entry = list_before + FENCE + number * STARSHACKLE_ENTRY_NUMBERS;
    entry[0] = address, entry[1] = first, entry[2] = second;
}

static int list_untouched(void)
{
    return memcmp(list_before, list_area, sizeof list_area) == 0;
}

/* A patch of one run, and its bytes. */
static struct {
    uint8_t bytes[12 + 1024 + 4];
    size_t length;
} run_of;

static void run_at(uint64_t start, const char *bytes, size_t count)
{
    static const uint8_t mark[2] = {0x50, 0x52}, end[4] = {0x50, 0x45, 1, 0};
    size_t i;
    memcpy(run_of.bytes, mark, 2);
    for (i = 0; i < 8; i++)
        run_of.bytes[2 + i] = (uint8_t)(start >> 8 * i);
    run_of.bytes[10] = (uint8_t)count, run_of.bytes[11] = (uint8_t)(count >> 8);
    memcpy(run_of.bytes + 12, bytes, count);
    memcpy(run_of.bytes + 12 + count, end, 4);
    run_of.length = 12 + count + 4;
}

/* The example beside a run of these bytes, with so much room. */
static uint64_t beside(uint64_t start, const char *bytes, size_t count, size_t room)
{
    fill_list();
    run_at(start, bytes, count);
    return starshackle_compare(EXAMPLE, sizeof EXAMPLE, run_of.bytes, run_of.length, list, room, answer);
}

/* Two strings of which one is no patch, with any room. */
static void not_both(int line, const uint8_t *first, size_t first_len, const uint8_t *second, size_t second_len, uint64_t which)
{
    size_t room;
    for (room = 0; room <= 9; room++) {
        fill_list();
        expect_answer(line, "comparing", starshackle_compare(first, first_len, second, second_len, list, room, answer),
                      STARSHACKLE_BAD_PATCH, which, 0, 0, 0, 0, UNWRITTEN);
        check(line, list_untouched(), "the list is as it came");
    }
}

#define NOT_BOTH(first, first_len, second, second_len, which) not_both(__LINE__, first, first_len, second, second_len, which)

static const uint8_t NO_RUN[4] = {0x50, 0x45, 0, 0};

/* Every verdict, and what the list holds then. */
static void differences(void)
{
    const uint64_t none = STARSHACKLE_NOT_WRITTEN;
    uint8_t same[sizeof EXAMPLE];
    size_t room;

    /* nothing differs: of equal strings, in one place or in two */
    memcpy(same, EXAMPLE, sizeof same);
    fill_list();
    ANSWERS(starshackle_compare(EXAMPLE, sizeof EXAMPLE, same, sizeof same, list, MOST_LIST, answer), STARSHACKLE_DONE, 0, 0, 0, 0, 0);
    ANSWERS(starshackle_compare(EXAMPLE, sizeof EXAMPLE, EXAMPLE, sizeof EXAMPLE, list, 0, answer), STARSHACKLE_DONE, 0, 0, 0, 0, 0);
    ANSWERS(starshackle_compare(NO_RUN, sizeof NO_RUN, NO_RUN, sizeof NO_RUN, list, 3, answer), STARSHACKLE_DONE, 0, 0, 0, 0, 0);
    CHECK(list_untouched());

    /* A1 A3 at 1000h and A4 at 1005h beside A3 A2 at 1001h: three entries, in every list from none to longer */
    for (room = 0; room <= 14; room++) {
        if (room / 3 < 3) {
            ANSWERS(beside(0x1001, "\xA3\xA2", 2, room), STARSHACKLE_NO_ROOM, 0, 0, 3, 0, 0);
        } else {
            ANSWERS(beside(0x1001, "\xA3\xA2", 2, room), STARSHACKLE_DONE, 0, 0, 3, 0, 0);
            expect_entry(0, 0x1000, 0xA1, none);
            expect_entry(1, 0x1002, none, 0xA2);
            expect_entry(2, 0x1005, 0xA4, none);
        }
        CHECK(list_untouched());
    }

    /* the gap filled, which joins the runs, with another byte at 1001h */
    ANSWERS(beside(0x1000, "\xA1\xFF\1\2\0\xA4", 6, MOST_LIST), STARSHACKLE_DONE, 0, 0, 4, 0, 0);
    expect_entry(0, 0x1001, 0xA3, 0xFF);
    expect_entry(1, 0x1002, none, 1);
    expect_entry(2, 0x1003, none, 2);
    expect_entry(3, 0x1004, none, 0);
    CHECK(list_untouched());

    /* beside no run, either way round */
    fill_list();
    ANSWERS(starshackle_compare(NO_RUN, sizeof NO_RUN, EXAMPLE, sizeof EXAMPLE, list, 9, answer), STARSHACKLE_DONE, 0, 0, 3, 0, 0);
    expect_entry(0, 0x1000, none, 0xA1);
    expect_entry(1, 0x1001, none, 0xA3);
    expect_entry(2, 0x1005, none, 0xA4);
    CHECK(list_untouched());
    ANSWERS(starshackle_compare(EXAMPLE, sizeof EXAMPLE, NO_RUN, sizeof NO_RUN, list, 9, answer), STARSHACKLE_DONE, 0, 0, 3, 0, 0);
    expect_entry(0, 0x1000, 0xA1, none);
    expect_entry(1, 0x1001, 0xA3, none);
    expect_entry(2, 0x1005, 0xA4, none);
    CHECK(list_untouched());

    /* the ends of the addresses */
    ANSWERS(beside(0, "\x77", 1, 12), STARSHACKLE_DONE, 0, 0, 4, 0, 0);
    expect_entry(0, 0, none, 0x77);
    expect_entry(1, 0x1000, 0xA1, none);
    expect_entry(2, 0x1001, 0xA3, none);
    expect_entry(3, 0x1005, 0xA4, none);
    CHECK(list_untouched());
    ANSWERS(beside(UINT64_MAX, "\x77", 1, 12), STARSHACKLE_DONE, 0, 0, 4, 0, 0);
    expect_entry(0, 0x1000, 0xA1, none);
    expect_entry(1, 0x1001, 0xA3, none);
    expect_entry(2, 0x1005, 0xA4, none);
    expect_entry(3, UINT64_MAX, none, 0x77);
    CHECK(list_untouched());

    /* bytes that are no patch, the first named when both aren't, and 9 before 8 */
    NOT_BOTH(EXAMPLE, sizeof EXAMPLE - 1, EXAMPLE, sizeof EXAMPLE, 0);
    NOT_BOTH(EXAMPLE, sizeof EXAMPLE, EXAMPLE, sizeof EXAMPLE - 1, 1);
    NOT_BOTH(EXAMPLE, sizeof EXAMPLE - 1, EXAMPLE, sizeof EXAMPLE - 1, 0);
    NOT_BOTH(changed(16, 0x02), sizeof EXAMPLE, NO_RUN, sizeof NO_RUN, 0);
    NOT_BOTH(NO_RUN, sizeof NO_RUN, changed(16, 0x02), sizeof EXAMPLE, 1);
}

/* As many entries as there can be, and lists with room for one less, just so many, and one number more. */
static void most_differences(void)
{
    static uint8_t second[MOST_PATCH];
    size_t length, i, room;

    fill();
    length = runs_of(512, 2);
    memcpy(second, patch, length);
    for (i = 0; i < 512; i++) /* at the two addresses behind, which no run of the first has */
        second[14 * i + 2] = (uint8_t)(second[14 * i + 2] + 2);
    for (room = MOST_LIST - 3; room <= MOST_LIST + 1; room++) {
        const uint64_t none = STARSHACKLE_NOT_WRITTEN;
        const int enough = room >= MOST_LIST;
        fill_list();
        ANSWERS(starshackle_compare(patch, length, second, length, list, room, answer),
                enough ? STARSHACKLE_DONE : STARSHACKLE_NO_ROOM, 0, 0, STARSHACKLE_MOST_DIFFERENCES, 0, 0);
        for (i = 0; enough && i < STARSHACKLE_MOST_DIFFERENCES; i++) {
            const uint64_t byte = (uint8_t)(i / 4 + 3 * (i % 2) + 1);
            expect_entry(i, 0x1000 + i, i % 4 < 2 ? byte : none, i % 4 < 2 ? none : byte);
        }
        CHECK(list_untouched());
    }

    /* 512 runs of which one byte differs, the last */
    memcpy(second, patch, length);
    second[length - 5] ^= 1;
    fill_list();
    ANSWERS(starshackle_compare(patch, length, second, length, list, 3, answer), STARSHACKLE_DONE, 0, 0, 1, 0, 0);
    expect_entry(0, 0x1000 + 4 * 511 + 1, (uint8_t)(511 + 4), (uint8_t)(511 + 4) ^ 1);
    CHECK(list_untouched());
}

/* ---- null pointers with length 0 */

static void nulls(void)
{
    static const uint8_t EMPTY[4] = {0x50, 0x45, 0, 0};
    const uint64_t sve = STARSHACKLE_FLAG_SVE;

    scatter_machine(OFFSETS, BYTES);
    STORE_REFUSED(starshackle_store(16, sve, m.x, 0, NULL, 0, m.p, 32, 0x1000, memory, 8, SCATTER, patch, 31, answer),
                  STARSHACKLE_REGISTERS);
    STORE_REFUSED(starshackle_store(16, sve, m.x, 0, m.z, 512, NULL, 0, 0x1000, memory, 8, SCATTER, patch, 31, answer),
                  STARSHACKLE_REGISTERS);
    STORE_REFUSED(starshackle_store(16, sve, m.x, 0, NULL, 0, NULL, 0, 0x1000, NULL, 0, SCATTER, NULL, 0, answer),
                  STARSHACKLE_REGISTERS);
    STORE_REFUSED(starshackle_store(0, sve, m.x, 0, NULL, 0, NULL, 0, 0x1000, NULL, 0, SCATTER, NULL, 0, answer), STARSHACKLE_LENGTH);
    REFUSED(starshackle_element(16, sve, m.x, 0, NULL, 0, m.p, 32, SCATTER, 0, answer), STARSHACKLE_REGISTERS);
    REFUSED(starshackle_element(16, sve, m.x, 0, m.z, 512, NULL, 0, SCATTER, 0, answer), STARSHACKLE_REGISTERS);
    REFUSED(starshackle_element(0, sve, m.x, 0, NULL, 0, NULL, 0, SCATTER, 0, answer), STARSHACKLE_LENGTH);

    /* no window and no buffer, with elements active */
    STORE_REFUSED(starshackle_store(16, sve, m.x, 0, m.z, 512, m.p, 32, 0x1000, memory, 8, SCATTER, NULL, 0, answer),
                  STARSHACKLE_NO_ROOM);
    STORES(starshackle_store(16, sve, m.x, 0, m.z, 512, m.p, 32, 0x1000, NULL, 0, SCATTER, patch, 31, answer), STARSHACKLE_FAULT, 0,
           0x1000, 0, 0, 0, 0);
    STORES(starshackle_store(16, sve, m.x, 0, m.z, 512, m.p, 32, 0x1000, NULL, 0, SCATTER, NULL, 0, answer), STARSHACKLE_FAULT, 0,
           0x1000, 0, 0, 0, 0);
    /* and with none */
    memset(m.p, 0, sizeof m.p);
    STORE_REFUSED(starshackle_store(16, sve, m.x, 0, m.z, 512, m.p, 32, 0x1000, NULL, 0, SCATTER, NULL, 0, answer),
                  STARSHACKLE_NO_ROOM);
    CHECK(untouched());
    STORES(starshackle_store(16, sve, m.x, 0, m.z, 512, m.p, 32, 0x1000, NULL, 0, SCATTER, patch, 4, answer), STARSHACKLE_DONE, 0, 0,
           0, 0, 4, 0);
    expect_patch(0, EMPTY, sizeof EMPTY);
    CHECK(untouched());

    ANSWERS(starshackle_judge(NULL, 0, answer), STARSHACKLE_BAD_PATCH, 0, 0, 0, 0, 0);
    REFUSED(starshackle_apply(0x1000, memory, 8, NULL, 0, answer), STARSHACKLE_BAD_PATCH);
    REFUSED(starshackle_apply(0x1000, NULL, 0, NULL, 0, answer), STARSHACKLE_BAD_PATCH);
    ANSWERS(starshackle_apply(UINT64_MAX, NULL, 0, EMPTY, sizeof EMPTY, answer), STARSHACKLE_DONE, 0, 0, 0, 0, 0);
    ANSWERS(starshackle_apply(0x1000, NULL, 0, EXAMPLE, sizeof EXAMPLE, answer), STARSHACKLE_OUTSIDE, 0, 0x1000, 0, 0, 0);
    CHECK(untouched());

    REFUSED(starshackle_compare(NULL, 0, EMPTY, sizeof EMPTY, NULL, 0, answer), STARSHACKLE_BAD_PATCH);
    ANSWERS(starshackle_compare(EMPTY, sizeof EMPTY, NULL, 0, NULL, 0, answer), STARSHACKLE_BAD_PATCH, 1, 0, 0, 0, 0);
    REFUSED(starshackle_compare(NULL, 0, NULL, 0, NULL, 0, answer), STARSHACKLE_BAD_PATCH);
    ANSWERS(starshackle_compare(EMPTY, sizeof EMPTY, EMPTY, sizeof EMPTY, NULL, 0, answer), STARSHACKLE_DONE, 0, 0, 0, 0, 0);
    ANSWERS(starshackle_compare(EMPTY, sizeof EMPTY, EXAMPLE, sizeof EXAMPLE, NULL, 0, answer), STARSHACKLE_NO_ROOM, 0, 0, 3, 0, 0);
}

/* ---- both rules for the vector length */

/* Every bit that is neither the edition nor streaming, feature or check. */
#define NO_FLAGS (~(STARSHACKLE_FLAG_EARLY | UINT64_C(0x7F)))

static int one_of_five(size_t vb)
{
    return vb == 16 || vb == 32 || vb == 64 || vb == 128 || vb == 256;
}

static void editions(void)
{
    const uint64_t early = STARSHACKLE_FLAG_EARLY, streaming = STARSHACKLE_FLAG_STREAMING | STARSHACKLE_FLAG_FA64;
    const uint64_t features = STARSHACKLE_FLAG_SVE | STARSHACKLE_FLAG_SME2 | STARSHACKLE_FLAG_SVE2P1;
    size_t vb, e;
    unsigned bits;

    for (vb = 0; vb <= 272; vb += 8) {
        const int five = one_of_five(vb), multiple = vb % 16 == 0 && 16 <= vb && vb <= 256;
        for (bits = 0; bits < 8; bits++) {
            const int any = (bits & 1) && !(bits & 2), allowed = any ? multiple : five;
            machine(vb < 256 ? vb : 256, features | ((bits & 1) ? early : 0) | ((bits & 2) ? streaming : 0) | ((bits & 4) ? NO_FLAGS : 0),
                    0x1000, 0);
            m.vb = vb;
            CHECK((store(SCATTER, MOST_PATCH) == STARSHACKLE_LENGTH) == !allowed);
            CHECK((element(SCATTER, 0) == STARSHACKLE_LENGTH) == !allowed);
            CHECK((store(0xE4202000, MOST_PATCH) == STARSHACKLE_LENGTH) == !allowed);
            CHECK((store(0xA1606000, MOST_PATCH) == STARSHACKLE_LENGTH) == !allowed);
            CHECK((element(0xA1606000, 0) == STARSHACKLE_LENGTH) == !five);
        }
    }

    /* VB 48: three quadwords, of which P0 has bits 0, 16 and 32 */
    machine(48, features | early, 0x1000, 64);
    m.x[0] = 0x1000;
    for (e = 0; e < 3; e++) {
        set_z(1, 2 * e, 8, 16 * e);
        set_z(0, 2 * e, 8, 0x0706050403020100 + 0x1010101010101010 * e);
        set_z(0, 2 * e + 1, 8, 0x0F0E0D0C0B0A0908 + 0x1010101010101010 * e);
        m.p[2 * e] = 1;
    }
    STORES(store(0xE4202020, MOST_PATCH), STARSHACKLE_DONE, 0, 0, 3, 48, 64, 1);
    for (e = 0; e < 48; e++)
        expect_memory(e, (uint8_t)e);
    CHECK(memcmp(memory_before, memory_area, sizeof memory_area) == 0);
    ANSWERS(element(0xE4202020, 2), STARSHACKLE_DONE, 1, 0x1020, 32, 16, 3);
    ANSWERS(element(0xE4202020, 3), STARSHACKLE_DONE, 0, 0, 0, 0, 3);
    m.p[2] = 0;
    STORES(store(0xE4202020, MOST_PATCH), STARSHACKLE_DONE, 0, 0, 2, 32, 60, 2);
    fill();
    m.z_len--;
    IS_REFUSED(0xE4202020, STARSHACKLE_REGISTERS, 0, 0);
    REFUSED(element(0xE4202020, 0), STARSHACKLE_REGISTERS);
    REFUSED(element(0xA1606000, 0), STARSHACKLE_LENGTH); /* before what is said of the registers */
    m.flags |= streaming;
    IS_REFUSED(0xE4202020, STARSHACKLE_LENGTH, 0, 0);
    m.flags = features;
    IS_REFUSED(0xE4202020, STARSHACKLE_LENGTH, 0, 0);
    m.flags = features | early;
    m.z_len++;
    IS_REFUSED(0xA1606000, STARSHACKLE_ILLEGAL, 0, 0);
}

int main(void)
{
    memset(answer, 0x5A, sizeof answer);
    words();
    example();
    fillings();
    rooms();
    strided();
    counters();
    quadword();
    narrow();
    narrow_strided();
    largest();
    steps();
    refusals();
    overlaps();
    faults();
    patches();
    differences();
    most_differences();
    nulls();
    editions();
    printf("C interface: %lu checks passed\n", checks);
    return 0;
}
