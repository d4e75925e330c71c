/*
 * Starshackle: a proved model of Arm's predicated vector stores (SVE scatter and SME2 strided ST1B, ST1H, ST1W and ST1D,
 * SVE2p1 ST1Q).
 *
 * Link with libstarshackle.a, which `tools/archive` makes. It needs nothing but the C library.
 *
 * Every function answers a verdict's number, and writes all entries of the array that it is lent for its answer (`answer` or
 * `fields`), whatever the verdict. Every verdict but STARSHACKLE_DONE is a refusal: then memory, patch and list are as they came.
 *
 * What a caller owes; nothing checks it:
 * - `fields` points to 8, `x` to 31, `answer` to 5 numbers, in starshackle_store to 6, aligned as uint64_t is. None is ever null.
 * - `z`, `p`, `memory`, `patch`, `first` and `second` point to as many bytes as the length behind them says, or more. They need no
 *   alignment. `list` points to as many numbers, aligned as uint64_t is. With length 0 they may be null. (Tried with each of them, in
 *   each function that takes it: tests/c/test_starshackle.c.)
 * - What a call writes (`fields` of starshackle_decode, `answer`, `memory`, `patch` of starshackle_store, `list`) overlaps nothing else
 *   that the call is lent: memory and patch don't overlap either. What it only reads may overlap.
 * - Nobody else writes what is lent until the call is back.
 *
 * Nothing is asked of the content: every number, byte and length gets its verdict. No pointer is kept, no memory is allocated, and
 * there is no state: calls don't depend on each other, and threads may call at the same time. A call takes a few KiB of stack.
 */
#ifndef STARSHACKLE_H
#define STARSHACKLE_H

#include <stddef.h>
#include <stdint.h>

#define STARSHACKLE_VERSION_MAJOR 0
#define STARSHACKLE_VERSION_MINOR 1
#define STARSHACKLE_VERSION_PATCH 0
#define STARSHACKLE_VERSION "0.1.0"

#ifdef __cplusplus
extern "C" {
#endif

/*
 * The version as a text, that of the header with which the caller was compiled: the function is here and not in the library, which has
 * only what is proved.
 */
static inline const char *starshackle_version(void)
{
    return STARSHACKLE_VERSION;
}

/* Verdicts, in the order in which they are checked, in which 12 stands before 8: the first that is due is answered. In
   starshackle_compare 9 stands before 8. */
enum starshackle_verdict {
    STARSHACKLE_DONE = 0,
    STARSHACKLE_LENGTH = 1,    /* vb is none of 16, 32, 64, 128, 256; with EARLY on and STREAMING off: no multiple of 16 from 16 to 256 */
    STARSHACKLE_REGISTERS = 2, /* z_len isn't 32 * vb, or p_len isn't 2 * vb */
    STARSHACKLE_WINDOW = 3,    /* the window is longer than 65,536 bytes, or passes 2^64; it may end there */
    STARSHACKLE_UNDEFINED = 4, /* the word is of no class, or its flag is off: SVE for 1..7 and 13..24, SME2 for 8..11 and 25..36,
                                  SVE2P1 for 12 */
    STARSHACKLE_ILLEGAL = 5,   /* 1..7 and 12..24: streaming on and FA64 off; 8..11 and 25..36: streaming off */
    STARSHACKLE_STACK = 6,     /* SP is the base, is checked, and isn't a multiple of 16 */
    STARSHACKLE_FAULT = 7,     /* an active element has a byte outside the window */
    STARSHACKLE_OVERLAP = 12,  /* two active elements share a byte, and STRICT is on */
    STARSHACKLE_NO_ROOM = 8,   /* the patch buffer is shorter than the patch, or the list too short for the differences */
    STARSHACKLE_BAD_PATCH = 9, /* the bytes are no patch; of two strings one isn't */
    STARSHACKLE_OUTSIDE = 10,  /* a run isn't wholly in the window */
    STARSHACKLE_FIELDS = 11    /* no word has these fields */
};

/* Bits of `flags`; others mean nothing. */
enum starshackle_flag {
    STARSHACKLE_FLAG_SVE = 1,
    STARSHACKLE_FLAG_SME2 = 2,
    STARSHACKLE_FLAG_SVE2P1 = 4,
    STARSHACKLE_FLAG_STREAMING = 8,             /* streaming mode is on */
    STARSHACKLE_FLAG_FA64 = 16,                 /* classes 1..7 and 12..24 are legal in streaming mode */
    STARSHACKLE_FLAG_SP_CHECK = 32,             /* SP as a base has to be a multiple of 16 where an element is active, */
    STARSHACKLE_FLAG_SP_CHECK_NONE_ACTIVE = 64, /* and, with this flag too, where none is */
    STARSHACKLE_FLAG_STRICT = 128,              /* a store of which two active elements share a byte is refused */
    STARSHACKLE_FLAG_EARLY = 256                /* the early edition of Arm's SVE supplement, else the late one: which lengths there are */
};

/* Classes of words: instruction, element size where there are several, and how offsets or registers are given. */
enum starshackle_class {
    STARSHACKLE_CLASS_ST1D_32_UNPACKED_SCALED = 1,
    STARSHACKLE_CLASS_ST1D_32_UNPACKED_UNSCALED = 2,
    STARSHACKLE_CLASS_ST1D_64_SCALED = 3,
    STARSHACKLE_CLASS_ST1D_64_UNSCALED = 4,
    STARSHACKLE_CLASS_ST1B_32_UNPACKED = 5,
    STARSHACKLE_CLASS_ST1B_32 = 6,
    STARSHACKLE_CLASS_ST1B_64 = 7,
    STARSHACKLE_CLASS_ST1D_STRIDED_TWO_SCALAR = 8,
    STARSHACKLE_CLASS_ST1D_STRIDED_FOUR_SCALAR = 9,
    STARSHACKLE_CLASS_ST1D_STRIDED_TWO_IMMEDIATE = 10,
    STARSHACKLE_CLASS_ST1D_STRIDED_FOUR_IMMEDIATE = 11,
    STARSHACKLE_CLASS_ST1Q = 12,
    STARSHACKLE_CLASS_ST1H_32_UNPACKED_SCALED = 13,
    STARSHACKLE_CLASS_ST1H_32_UNPACKED_UNSCALED = 14,
    STARSHACKLE_CLASS_ST1H_64_SCALED = 15,
    STARSHACKLE_CLASS_ST1H_64_UNSCALED = 16,
    STARSHACKLE_CLASS_ST1H_32_SCALED = 17,
    STARSHACKLE_CLASS_ST1H_32_UNSCALED = 18,
    STARSHACKLE_CLASS_ST1W_32_UNPACKED_SCALED = 19,
    STARSHACKLE_CLASS_ST1W_32_UNPACKED_UNSCALED = 20,
    STARSHACKLE_CLASS_ST1W_64_SCALED = 21,
    STARSHACKLE_CLASS_ST1W_64_UNSCALED = 22,
    STARSHACKLE_CLASS_ST1W_32_SCALED = 23,
    STARSHACKLE_CLASS_ST1W_32_UNSCALED = 24,
    STARSHACKLE_CLASS_ST1B_STRIDED_TWO_SCALAR = 25,
    STARSHACKLE_CLASS_ST1B_STRIDED_FOUR_SCALAR = 26,
    STARSHACKLE_CLASS_ST1B_STRIDED_TWO_IMMEDIATE = 27,
    STARSHACKLE_CLASS_ST1B_STRIDED_FOUR_IMMEDIATE = 28,
    STARSHACKLE_CLASS_ST1H_STRIDED_TWO_SCALAR = 29,
    STARSHACKLE_CLASS_ST1H_STRIDED_FOUR_SCALAR = 30,
    STARSHACKLE_CLASS_ST1H_STRIDED_TWO_IMMEDIATE = 31,
    STARSHACKLE_CLASS_ST1H_STRIDED_FOUR_IMMEDIATE = 32,
    STARSHACKLE_CLASS_ST1W_STRIDED_TWO_SCALAR = 33,
    STARSHACKLE_CLASS_ST1W_STRIDED_FOUR_SCALAR = 34,
    STARSHACKLE_CLASS_ST1W_STRIDED_TWO_IMMEDIATE = 35,
    STARSHACKLE_CLASS_ST1W_STRIDED_FOUR_IMMEDIATE = 36
};

/* How the 32-bit offsets of classes 1, 2, 5, 6, 13, 14, 17..20, 23 and 24 become 64-bit ones. */
enum starshackle_extension {
    STARSHACKLE_EXTENSION_NONE = 0, /* every other class */
    STARSHACKLE_EXTENSION_UXTW = 1, /* with zeros */
    STARSHACKLE_EXTENSION_SXTW = 2  /* with the sign */
};

/* Entries of `fields`: a store as its word names it. An entry for a field that the class lacks is 0. */
enum starshackle_field {
    STARSHACKLE_FIELD_CLASS = 0,
    STARSHACKLE_FIELD_INDEX = 1,     /* Zm in classes 1..7 and 13..24; Rm in 8, 9, 12, 25, 26, 29, 30, 33 and 34 */
    STARSHACKLE_FIELD_EXTENSION = 2,
    STARSHACKLE_FIELD_PREDICATE = 3, /* Pg; in classes 8..11 and 25..36 the counter's register less 8 */
    STARSHACKLE_FIELD_BASE = 4,      /* Rn, 31 for SP; in class 12 Zn */
    STARSHACKLE_FIELD_REGISTER = 5,  /* Zt; in classes 8..11 and 25..36 the first of the registers */
    STARSHACKLE_FIELD_MULTIPLE = 6,  /* classes 10, 11, 27, 28, 31, 32, 35 and 36: the immediate in vectors, in two's complement:
                                        (int64_t)fields[6] */
    STARSHACKLE_FIELD_ZERO = 7       /* always 0 */
};

/* Lengths in bytes. */
enum starshackle_length {
    STARSHACKLE_LARGEST_STORE_PATCH = 6660, /* no store's patch is longer: a buffer for starshackle_store with room for all */
    STARSHACKLE_LARGEST_PATCH = 7172,       /* no patch is longer */
    STARSHACKLE_LARGEST_WINDOW = 65536      /* no window is longer */
};

/* The list of starshackle_compare. */
enum starshackle_list {
    STARSHACKLE_ENTRY_NUMBERS = 3,      /* numbers of an entry: the address, the first patch's byte there, the second's */
    STARSHACKLE_NOT_WRITTEN = 256,      /* stands for the byte of a patch that doesn't write the address */
    STARSHACKLE_MOST_DIFFERENCES = 2048 /* no two patches have more: a list of so many times 3 numbers has room for all */
};

/*
 * What a word is. No flag is looked at.
 *
 *   word    the instruction word
 *   fields  for the answer, as in enum starshackle_field
 *
 * DONE       the word is of a class: fields[0] is its class, fields[1..6] are its fields, fields[7] is 0.
 * UNDEFINED  it is of none: zeros.
 *
 * fields is never null.
 */
uint64_t starshackle_decode(uint32_t word, uint64_t fields[8]);

/*
 * The word that names a store.
 *
 *   fields  the store, as in enum starshackle_field; only read
 *   answer  for the answer
 *
 * DONE    answer[4] is the word, answer[0..3] are 0. starshackle_decode answers these fields for it, and no other word has them.
 * FIELDS  zeros. The class isn't in the list, a field is outside its range, a field that the class lacks isn't 0, the first register
 *         or the multiple is one that the class can't name, an extension is given where the class has none or none where it has
 *         one, or fields[7] isn't 0. Numbers are judged whole: none is cut to its field's width.
 *
 * Neither is null, and they don't overlap.
 */
uint64_t starshackle_encode(const uint64_t fields[8], uint64_t answer[5]);

/*
 * A patch is a string of bytes that says which bytes are written where. Each run: 50 52 (hexadecimal), the start address in 8 bytes,
 * the length in 2, then that many bytes. Behind the last run: 50 45, and the number of runs in 2 bytes. Numbers are little-endian.
 * There are 0 to 512 runs; lengths are at least 1 and together at most 1,024; starts ascend, with at least one address between a run
 * and the next; no run passes 2^64; nothing follows.
 */

/*
 * Runs the store that a word names and makes its patch: writes the bytes of its active elements to memory, lowest element first, and
 * to the patch buffer the bytes that they leave there, each with its address. Writes both, or neither.
 *
 *   vb      VB, the vector length in bytes: 16, 32, 64, 128 or 256; with EARLY on and STREAMING off any multiple of 16 from 16 to 256
 *   flags   bits of enum starshackle_flag
 *   x       X0 to X30
 *   sp      SP: register 31 as a base. Register 31 as Rm is zero.
 *   z       the Z registers: register r from byte r * vb on, little-endian
 *   z_len   how many bytes they are: 32 * vb, or the verdict is 2
 *   p       the P registers: register g from byte g * vb / 8 on, bit i of it bit i % 8 of its byte i / 8. In classes 8..11 and
 *           25..36 the low 16 bits of register 8 + Pc are a counter; see below
 *   p_len   how many bytes they are: 2 * vb, or the verdict is 2
 *   base    the window's address: that of memory[0]
 *   memory  the window's bytes
 *   memory_len  how many bytes the window has
 *   word    the instruction word
 *   patch   where the patch goes
 *   patch_len  how many bytes there is room for; STARSHACKLE_LARGEST_STORE_PATCH is always enough. 1,040 bytes are for classes 1..24;
 *           a store of classes 25..36 that leaves gaps may get NO_ROOM with them
 *   answer  for the answer
 *
 * DONE     answer[2] active elements, answer[3] bytes moved (an address that two elements write counts twice), answer[4] the patch's
 *          length, answer[5] steps; else 0. Bytes of memory that no active element covers are as they came. The patch is the first
 *          answer[4] bytes of the buffer; bytes behind it are as they came.
 *          Steps are the active elements that don't start where the active one before them, the next lower in number, ends; the first
 *          has none before it and is a step. So there is one where a whole register is contiguous and active, and none where nothing
 *          is active. A refusal has 0 there.
 * FAULT    answer[0] the lowest active element with a byte outside the window, answer[1] the address, modulo 2^64, of the first of
 *          its bytes, in its own byte order, that isn't in the window; else 0. That is the element's first address, or, where the
 *          byte there is in the window, the address behind the window, which is 0 where the window ends at 2^64.
 *          Elements are numbered from 0, a strided store's through all its registers.
 * OVERLAP  answer[0] the lowest active element that shares a byte with a lower active element, answer[1] its first address; else 0.
 *          Only with STARSHACKLE_FLAG_STRICT, which changes no other answer. A store that is done with it writes each byte once, so
 *          that answer[3] is its patch's payload bytes. A strided store is never refused so.
 * NO_ROOM  zeros: the patch has more than patch_len bytes.
 * LENGTH, REGISTERS, WINDOW, UNDEFINED, ILLEGAL, STACK  zeros.
 *
 * A counter's element size is 8, 16, 32 or 64 bits, as its lowest set bit is bit 0, 1, 2 or 3; where none of these is set nothing is
 * active, whatever the others are. Its count is the number above that bit, up to bit log2(4 * vb): bit 6 for vb 16, 7 for 32, 8 for
 * 64, 9 for 128, 10 for 256. The bits above it up to 14 are ignored. Elements of that size lie one behind the other through all
 * registers of the store. An element of the store is active if it starts where one of the first `count` of them starts, or, where bit
 * 15 is set, where another of them starts. So 0418h is 0018h for vb 16: doubleword 0 is active and no other. And a counter of a wider
 * size than the store's elements leaves gaps: a store of bytes under a size of 16 bits writes every second byte, in a run of its own.
 * Each is a step then; elements under a counter of their own size or a narrower one are one step and one run.
 *
 * Verdict, answer and patch don't depend on what the window holds, and applying the patch to any content of it leaves what the store
 * leaves there. A caller who wants only the patch lends a scratch window: memory_len bytes of any content. One who wants only the
 * memory lends a scratch buffer of STARSHACKLE_LARGEST_STORE_PATCH bytes.
 *
 * z, p, memory and patch may be null with length 0; x and answer never. memory, patch and answer overlap neither each other nor
 * anything else of the call.
 */
uint64_t starshackle_store(size_t vb, uint64_t flags, const uint64_t x[31], uint64_t sp, const uint8_t *z, size_t z_len,
                           const uint8_t *p, size_t p_len, uint64_t base, uint8_t *memory, size_t memory_len, uint32_t word,
                           uint8_t *patch, size_t patch_len, uint64_t answer[6]);

/*
 * What one element of the word's store is. No window is looked at, and of the flags only EARLY and STREAMING, for LENGTH.
 *
 *   vb, flags, x, sp, z, z_len, p, p_len, word  as in starshackle_store
 *   e       the element's number, from 0 on, a strided store's through all its registers
 *   answer  for the answer
 *
 * DONE   answer[4] is how many elements the store has, active or not. If e is below it:
 *        answer[0] 1 if element e is active, else 0; answer[1] its first address; answer[2] the index in z of its first byte;
 *        answer[3] how many bytes it writes. An element that isn't active has these too. Otherwise answer[0..3] are 0.
 * LENGTH     zeros: vb is refused as in starshackle_store, or the word is of classes 8..11 or 25..36 and vb is none of 16, 32, 64, 128,
 *            256. At such a vb starshackle_store refuses these words with one of 1 to 5, whatever the flags.
 * REGISTERS, UNDEFINED (the word is of no class)  zeros.
 *
 * z and p may be null with length 0; x and answer never. answer overlaps nothing else of the call.
 */
uint64_t starshackle_element(size_t vb, uint64_t flags, const uint64_t x[31], uint64_t sp, const uint8_t *z, size_t z_len,
                             const uint8_t *p, size_t p_len, uint32_t word, uint64_t e, uint64_t answer[5]);

/*
 * Applies a patch to the window: writes every byte of it, or none.
 *
 *   base    the window's address: that of memory[0]
 *   memory  the window's bytes
 *   memory_len  how many bytes the window has
 *   patch   the patch's bytes, all of them; only read
 *   patch_len  how many bytes they are
 *   answer  for the answer
 *
 * DONE     answer[2] runs, answer[3] payload bytes; else 0.
 * OUTSIDE  answer[0] the lowest run, from 0 on, that isn't wholly in the window, answer[1] its first address; else 0.
 * WINDOW, BAD_PATCH  zeros. starshackle_judge tells what is wrong with a bad patch.
 *
 * memory and patch may be null with length 0; answer never. memory and answer overlap nothing else of the call.
 */
uint64_t starshackle_apply(uint64_t base, uint8_t *memory, size_t memory_len, const uint8_t *patch, size_t patch_len,
                           uint64_t answer[5]);

/*
 * Whether bytes are a patch.
 *
 *   patch   the bytes; only read
 *   patch_len  how many they are
 *   answer  for the answer
 *
 * DONE       they are: answer[2] runs, answer[3] payload bytes; else 0.
 * BAD_PATCH  they aren't: answer[0] how many runs from the front are whole and acceptable, answer[1] the index where these end and
 *            something begins that can't be accepted: a run, an end, or an end with bytes behind it; else 0.
 *
 * patch may be null with length 0; answer never. answer overlaps nothing else of the call.
 */
uint64_t starshackle_judge(const uint8_t *patch, size_t patch_len, uint64_t answer[5]);

/*
 * Where two patches differ: each address that one of them writes and the other doesn't, or to which they write different bytes. There
 * is none exactly when the two strings are equal.
 *
 *   first   the first patch's bytes, all of them; only read
 *   first_len  how many bytes they are
 *   second  the second patch's bytes, all of them; only read
 *   second_len  how many bytes they are
 *   list    where the differences go: an entry is STARSHACKLE_ENTRY_NUMBERS numbers, which are the address, the first's byte and the
 *           second's, 0 to 255, or STARSHACKLE_NOT_WRITTEN where it doesn't write the address
 *   list_len  how many numbers the list has, with room for list_len / 3 entries, rounded down. STARSHACKLE_ENTRY_NUMBERS *
 *           STARSHACKLE_MOST_DIFFERENCES, which is 6,144, is always enough
 *   answer  for the answer
 *
 * DONE       answer[2] entries; else 0. They are the first of the list, by ascending address; numbers behind the last are as they came.
 * BAD_PATCH  answer[0] is 0 if the first string is no patch, whatever the second is, and 1 if the second isn't and the first is; else
 *            0. starshackle_judge tells what is wrong with it.
 * NO_ROOM    answer[2] the entries that are needed: more than list_len / 3; else 0. So a call with list_len 0 counts them. Only of two
 *            patches: BAD_PATCH comes before it, though its number is higher.
 *
 * first, second and list may be null with length 0; answer never. list and answer overlap neither each other nor anything else of the
 * call; first and second may overlap or be the same.
 */
uint64_t starshackle_compare(const uint8_t *first, size_t first_len, const uint8_t *second, size_t second_len, uint64_t *list,
                             size_t list_len, uint64_t answer[5]);

#ifdef __cplusplus
}
#endif

#endif
