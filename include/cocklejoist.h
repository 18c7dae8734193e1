/*
 * Cocklejoist: learning, running and unwhitening the feedback-with-carry shift registers of a meter series.
 *
 * A C interface to a proved library. Link the one archive target/staticlib/libcapi.a ("tools/build capi" writes it; x86-64
 * Linux). C99 or later, or C++.
 *
 * Words
 *   burst      up to CJ_MOST_BITS bits; bit i is in byte i/8 with weight 2^(i mod 8).
 *   pair       a fraction p/q. Inside the limits: q odd, 1 <= q <= CJ_LIMIT, -CJ_LIMIT <= p <= CJ_LIMIT.
 *   fits       (p, q) fits a burst of n bits with value A (the sum of bit i times 2^i) when A*q - p is divisible by 2^n.
 *   register   q, r cells and a signed memory, r = floor(log2(q+1)). Valid: q odd, 1 <= q <= CJ_LIMIT, cells below 2^r,
 *              -CJ_MOST_MEMORY <= memory <= CJ_MOST_MEMORY. Cell a_0, the next bit to come out, is the lowest bit of `cells`.
 *   block      0 to CJ_BLOCK_BYTES bytes of records end to end. A record: 5A C3; meter, two bytes, high first, 1 to CJ_METERS;
 *              bit count, two bytes, high first, 1 to CJ_RECORD_BITS; the bits in as few bytes as hold them, spare bits zero.
 *   store      CJ_METERS places of CJ_PLACE_BYTES bytes, place k for meter k: a count, two bytes, high first, 0 to
 *              CJ_MOST_BITS; then CJ_MOST_BITS/8 bytes of bits, zero at and past the count. A fresh store is all zero.
 *
 * Who owns what
 *   Every buffer is the caller's, before and after. It is lent for the length of the call: nothing is kept, nothing is
 *   allocated, nothing is freed. `const` buffers are only read. A function touches the bytes it is lent and no others.
 *   A buffer that is not `const` must overlap no other buffer of the call. A pointer whose length is 0 may be null, as that of an
 *   empty std::vector is: it is not looked at. No other pointer may be.
 *   What a call takes, in instructions and in stack, stands in docs/MANUAL.md.
 *   There is no state of the library's own: calls from several threads are safe as long as no two of them are lent the same
 *   bytes or register with one of them writing.
 *
 * Refusals
 *   Every answer but a version begins with `refusal`: CJ_OK, or the number of the rule that was broken. On a refusal nothing lent has changed, every
 *   other number of the answer but a `place` is 0, and a register that was handed over by value comes back as it was given. Where several
 *   rules are broken, the function's comment lists its refusals in the order in which they are tried.
 */
#ifndef COCKLEJOIST_H
#define COCKLEJOIST_H

#include <stddef.h>
#include <stdint.h>

#ifdef __cplusplus
extern "C" {
#endif

/*
 * The version of this interface: 0.2.0, a byte to each part. While the first part is 0 the interface still grows: the second part is raised where
 * something that was declared has changed, or means something else; the third where something was added.
 */
#define CJ_VERSION 0x000200

#define CJ_LIMIT 1073741823         /* 2^30 - 1: the largest q, and the largest p of either sign */
#define CJ_MOST_MEMORY 1073741824   /* 2^30: the largest memory of a valid register, of either sign */
#define CJ_MOST_BITS 4096           /* the bits of the longest burst, and of a full place */
#define CJ_TABLE_LARGEST 1023       /* the largest q of the period table */
#define CJ_WHITEN_BYTES 512         /* the most bytes to whiten in one call */
#define CJ_METERS 32                /* meters, and places of a store */
#define CJ_PLACE_BYTES 514          /* one place of a store */
#define CJ_STORE_BYTES 16448        /* a store: CJ_METERS * CJ_PLACE_BYTES */
#define CJ_BLOCK_BYTES 16384        /* the longest block */
#define CJ_HEADER_BYTES 6           /* a record before its bits */
#define CJ_RECORD_BITS 512          /* the most bits of one record */

/* The numbers for no. */
enum {
    CJ_OK = 0,
    CJ_BURST_TOO_LONG = 1,      /* burst count above CJ_MOST_BITS */
    CJ_BYTES_MISSING = 2,       /* fewer bytes than the count needs */
    CJ_NO_PAIR = 3,             /* no fitting pair inside the limits */
    CJ_OUTSIDE_LIMITS = 4,      /* pair, or table denominator, outside its limits */
    CJ_REGISTER_INVALID = 5,    /* register not valid */
    CJ_ALLOWANCE_TOO_SMALL = 6, /* allowance smaller than lead-in plus period */
    CJ_READ_BACK_OUTSIDE = 7,   /* read-back pair, in lowest terms, outside the limits */
    CJ_MEMORY_OUTSIDE = 8,      /* loaded memory would be outside -CJ_MOST_MEMORY to CJ_MOST_MEMORY */
    CJ_TOO_MUCH_TO_WHITEN = 9,  /* more than CJ_WHITEN_BYTES bytes to whiten */
    CJ_STORE_INVALID = 10,      /* store not CJ_STORE_BYTES bytes, or any place breaks its rules */
    CJ_BLOCK_TOO_LONG = 11,     /* block above CJ_BLOCK_BYTES bytes */
    CJ_RECORD_CUT = 12,         /* only 1 to 5 bytes left where a record should begin, or its bits run past the block */
    CJ_MARK_WRONG = 13,         /* mark not 5A C3 */
    CJ_METER_WRONG = 14,        /* meter number not 1 to CJ_METERS */
    CJ_BIT_COUNT_WRONG = 15,    /* bit count 0 or above CJ_RECORD_BITS */
    CJ_SPARE_BIT_SET = 16,      /* spare bit of a record's last byte set */
    CJ_PLACE_FULL = 17,         /* meter's count would pass CJ_MOST_BITS */
    CJ_NO_RECORD = 18           /* the block used has no such record, or the ordinal is 0 */
};

/* A register, handed over by value. Only cj_whiten takes it by pointer, and changes it. */
typedef struct cj_register {
    uint32_t q;
    uint32_t cells;
    int32_t memory;
} cj_register;

/* A pair, learned or read back. */
typedef struct cj_fraction {
    uint32_t refusal;
    int32_t p;
    uint32_t q;
} cj_fraction;

/* A loaded register. */
typedef struct cj_loaded {
    uint32_t refusal;
    cj_register state;
} cj_loaded;

/* The bit that was emitted, 0 or 1, and the register after the step. */
typedef struct cj_stepped {
    uint32_t refusal;
    uint32_t bit;
    cj_register state;
} cj_stepped;

/* Lead-in, period, and the two together. */
typedef struct cj_walked {
    uint32_t refusal;
    uint32_t lead;
    uint32_t period;
    uint32_t sum;
} cj_walked;

/* The storage that a register needs. */
typedef struct cj_storage {
    uint32_t refusal;
    uint32_t cells;
    uint32_t memory_bits;
} cj_storage;

/* An entry of the period table. */
typedef struct cj_entry {
    uint32_t refusal;
    uint32_t period;
} cj_entry;

/* The first 64 bits that a pair gives, the first bit lowest. (Four bytes of padding follow the refusal.) */
typedef struct cj_word {
    uint32_t refusal;
    uint64_t word;
} cj_word;

/* How a block was taken. `place` is the first byte of the offending record; 0 for CJ_STORE_INVALID and CJ_BLOCK_TOO_LONG. */
typedef struct cj_taken {
    uint32_t refusal;
    uint32_t place;
} cj_taken;

/*
 * A record of two antennas' blocks: its bit count, the antenna that it came from, 1 or 2, and its payload: `length` bytes from byte
 * `start` of the block of that antenna. On a refusal `antenna` is 0 and there is no part; `place` is the first byte of the offending
 * record of the first block, for CJ_RECORD_CUT to CJ_SPARE_BIT_SET of that block, and 0 otherwise.
 */
typedef struct cj_record {
    uint32_t refusal;
    uint32_t place;
    uint32_t count;
    uint32_t antenna;
    uint32_t start;
    uint32_t length;
} cj_record;

/*
 * The version of the library that is linked: the CJ_VERSION of its own header. A program that was compiled with this header may call a library
 * whose first two parts are the same and whose version is not smaller: cj_version() >> 8 == CJ_VERSION >> 8 && cj_version() >= CJ_VERSION.
 *
 *     assert(cj_version() == CJ_VERSION);
 */
uint32_t cj_version(void);

/*
 * The smallest pair that fits the first `count` bits of `bytes`: of the fitting pairs inside the limits, the one with the least size
 * (the larger of |p| and q); among those the least |p|; then the least q; then p not negative. No bits: (0, 1).
 * Bits past the count and further bytes have no effect.
 * Refuses, in this order: CJ_BURST_TOO_LONG, CJ_BYTES_MISSING, CJ_NO_PAIR (exactly when no pair inside the limits fits).
 *
 *     static const uint8_t bytes[] = {0x53, 0x04}; // 1100101000100, the first bit left
 *     cj_fraction pair = cj_learn(bytes, sizeof bytes, 13);
 *     assert(pair.refusal == CJ_OK && pair.p == -1 && pair.q == 37);
 */
cj_fraction cj_learn(const uint8_t *bytes, size_t len, uint64_t count);

/*
 * The same for the bits in the place of `meter` (1 to CJ_METERS) of a store.
 * Refuses, in this order: CJ_STORE_INVALID, CJ_METER_WRONG, CJ_NO_PAIR.
 *
 *     static uint8_t store[CJ_STORE_BYTES];              // fresh
 *     uint8_t *place = store + (7 - 1) * CJ_PLACE_BYTES; // of meter 7
 *     place[1] = 3, place[2] = 0x05;                     // three bits, 101
 *     cj_fraction pair = cj_learn_meter(store, sizeof store, 7);
 *     assert(pair.refusal == CJ_OK && pair.p == -1 && pair.q == 3);
 */
cj_fraction cj_learn_meter(const uint8_t *store, size_t len, uint32_t meter);

/*
 * The pair whose bits the register emits, in lowest terms with q positive; zero is (0, 1).
 * Refuses, in this order: CJ_REGISTER_INVALID, CJ_READ_BACK_OUTSIDE.
 *
 *     cj_register r = {15, 5, 0}; // loaded from (-5, 15)
 *     cj_fraction pair = cj_read_back(r);
 *     assert(pair.refusal == CJ_OK && pair.p == -1 && pair.q == 3);
 */
cj_fraction cj_read_back(cj_register r);

/*
 * The register that emits the bits of p/q. The pair need not be in lowest terms; the register keeps its q.
 * Refuses, in this order: CJ_OUTSIDE_LIMITS, CJ_MEMORY_OUTSIDE.
 *
 *     cj_loaded loaded = cj_load(-1, 37);
 *     assert(loaded.refusal == CJ_OK && loaded.state.q == 37 && loaded.state.cells == 19 && loaded.state.memory == 0);
 */
cj_loaded cj_load(int32_t p, uint32_t q);

/*
 * One step: the bit that comes out, and the register after it.
 * Refuses: CJ_REGISTER_INVALID, and hands the register back as given (bit 0).
 *
 *     cj_register r = {37, 19, 0}; // loaded from (-1, 37)
 *     for (const char *bits = "1100101000100"; *bits; bits++) {
 *         cj_stepped stepped = cj_step(r);
 *         assert(stepped.refusal == CJ_OK && stepped.bit == (uint32_t)(*bits - '0'));
 *         r = stepped.state;
 *     }
 */
cj_stepped cj_step(cj_register r);

/*
 * Lead-in, the least L, and period, the least T >= 1, for which the state after L+T steps equals the state after L; and L+T.
 * Refuses, in this order: CJ_REGISTER_INVALID, CJ_ALLOWANCE_TOO_SMALL (exactly when L+T exceeds the allowance).
 *
 *     cj_register r = {37, 19, 0}; // loaded from (-1, 37)
 *     cj_walked walked = cj_walk(r, 36);
 *     assert(walked.refusal == CJ_OK && walked.lead == 0 && walked.period == 36 && walked.sum == 36);
 *     assert(cj_walk(r, 35).refusal == CJ_ALLOWANCE_TOO_SMALL);
 */
cj_walked cj_walk(cj_register r, uint32_t allowance);

/*
 * The cells of the register, r, and the bits that hold its memory in two's complement, now and after any number of steps: the least
 * n >= 1 with both the memory and w - 1 between -2^(n-1) and 2^(n-1) - 1, w being the number of ones in q+1.
 * Refuses: CJ_REGISTER_INVALID.
 *
 *     cj_register r = {37, 19, 0}; // 38 has three ones, and 2 takes three bits with its sign
 *     cj_storage storage = cj_sheet(r);
 *     assert(storage.refusal == CJ_OK && storage.cells == 5 && storage.memory_bits == 3);
 *     r.memory = -4; // -4 takes three bits too
 *     assert(cj_sheet(r).memory_bits == 3);
 */
cj_storage cj_sheet(cj_register r);

/*
 * The least T >= 1 with 2^T - 1 divisible by q, from the table of the odd q from 1 to CJ_TABLE_LARGEST.
 * Refuses: CJ_OUTSIDE_LIMITS (q even, 0 or larger).
 *
 *     cj_entry entry = cj_period(37);
 *     assert(entry.refusal == CJ_OK && entry.period == 36);
 */
cj_entry cj_period(uint32_t q);

/*
 * The whole number u below 2^64 with u*q - p divisible by 2^64: the first 64 bits of p/q, the first bit lowest.
 * Refuses: CJ_OUTSIDE_LIMITS.
 *
 *     cj_word first = cj_output_word(-1, 37);
 *     assert(first.refusal == CJ_OK && first.word % 8192 == 0x0453); // 1100101000100, and what follows
 *     assert(cj_output_word(-1, 1).word == UINT64_MAX);              // ones forever
 */
cj_word cj_output_word(int32_t p, uint32_t q);

/*
 * Combines each of the `len` bytes by exclusive or with the next eight bits of the register, the first bit lowest, and leaves
 * *r stepped eight times for each byte. The same starting register applied twice gives the first bytes back.
 * Answers CJ_OK or a refusal, in this order: CJ_REGISTER_INVALID, CJ_TOO_MUCH_TO_WHITEN; on a refusal neither *r nor a byte has changed.
 *
 *     cj_register r = {37, 19, 0}, start = r; // loaded from (-1, 37)
 *     uint8_t bytes[] = {0, 0};
 *     assert(cj_whiten(&r, bytes, sizeof bytes) == CJ_OK);
 *     assert(bytes[0] == 0x53 && bytes[1] % 32 == 0x04); // 1100101000100, and three bits more
 *     assert(cj_whiten(&start, bytes, sizeof bytes) == CJ_OK && bytes[0] == 0 && bytes[1] == 0);
 */
uint32_t cj_whiten(cj_register *r, uint8_t *bytes, size_t len);

/*
 * Takes a block into the store: appends each record's bits, in block order, to its meter's place. A block is taken whole or
 * refused whole; refused, no byte of the store has changed.
 * Refuses, in this order: CJ_STORE_INVALID, CJ_BLOCK_TOO_LONG; then record by record CJ_RECORD_CUT (fewer than six bytes left),
 * CJ_MARK_WRONG, CJ_METER_WRONG, CJ_BIT_COUNT_WRONG, CJ_RECORD_CUT (bits past the block's end), CJ_SPARE_BIT_SET; and only when every record has
 * passed, CJ_PLACE_FULL at the first record that overfills its place.
 *
 *     static uint8_t store[CJ_STORE_BYTES]; // fresh
 *     static const uint8_t block[] = {0x5A, 0xC3, 0, 3, 0, 13, 0x53, 0x04, 0x5A, 0xC3, 0, 7, 0, 3, 0x05};
 *     assert(cj_take(store, sizeof store, block, sizeof block).refusal == CJ_OK);
 *     cj_fraction pair = cj_learn_meter(store, sizeof store, 3);
 *     assert(pair.p == -1 && pair.q == 37);
 *     cj_taken taken = cj_take(store, sizeof store, block, sizeof block - 1); // its last byte lost
 *     assert(taken.refusal == CJ_RECORD_CUT && taken.place == 8);
 */
cj_taken cj_take(uint8_t *store, size_t store_len, const uint8_t *block, size_t block_len);

/*
 * One record out of the blocks of two antennas: of the records that name `meter` (1 to CJ_METERS), the `ordinal`-th in block order,
 * counted from 1. The first block is used if all of it is well formed, otherwise the second. An empty block is well formed, so a
 * silent first antenna is used and has no record. No store is involved, and neither block is changed. The part is not copied: its bytes
 * stay in the caller's block, first + start or second + start as `antenna` says, for as long as the caller keeps that block.
 * Refuses, in this order: where both blocks are malformed, what the first one breaks, with its place: CJ_BLOCK_TOO_LONG, then
 * CJ_RECORD_CUT to CJ_SPARE_BIT_SET record by record as in cj_take; CJ_METER_WRONG for the asked meter (place 0); CJ_NO_RECORD.
 *
 *     static const uint8_t block[] = {0x5A, 0xC3, 0, 3, 0, 13, 0x53, 0x04, 0x5A, 0xC3, 0, 7, 0, 3, 0x05};
 *     cj_record record = cj_read(block, sizeof block - 1, block, sizeof block, 7, 1); // the first antenna lost a byte
 *     assert(record.refusal == CJ_OK && record.antenna == 2 && record.count == 3);
 *     assert(record.length == 1 && block[record.start] == 0x05);
 *     assert(cj_read(block, sizeof block, block, sizeof block, 7, 2).refusal == CJ_NO_RECORD);
 */
cj_record cj_read(const uint8_t *first, size_t first_len, const uint8_t *second, size_t second_len, uint32_t meter, uint32_t ordinal);

#ifdef __cplusplus
}
#endif

#endif
