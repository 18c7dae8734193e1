/*
 * Times the library, the straightforward C of plain.c and, for learning, FLINT, on the same inputs in one run, and prints a
 * table with the ratios. Nothing is asserted about the times; that all give the same answers is, but for the plain walk at
 * q = 1073741789: it takes seconds, so it is timed once and its answer is not compared.
 */
#define _POSIX_C_SOURCE 200809L
#include "cocklejoist.h"
#include "plain.h"

#include <stdbool.h>
#include <stdio.h>
#include <stdlib.h>
#include <string.h>
#include <time.h>

#ifdef WITH_FLINT
#include <flint/fmpq.h>
#include <flint/fmpz.h>
#endif

#ifndef FLAGS
#define FLAGS "unknown flags"
#endif

/* ---- the clock: processor time, so that other work on the machine counts less ---- */

static double now(void)
{
    struct timespec t;
    clock_gettime(CLOCK_PROCESS_CPUTIME_ID, &t);
    return (double)t.tv_sec + 1e-9 * (double)t.tv_nsec;
}

/* A call that is timed, on the input of a number. What it returns goes into `sink`, so that no call is left out. */
typedef uint32_t call(unsigned input);

static volatile uint32_t sink;

/* Seconds for n calls. */
static double run(call *f, uint64_t n)
{
    uint32_t sum = 0;
    double start = now();
    for (uint64_t i = 0; i < n; i++)
        sum += f((unsigned)i);
    double spent = now() - start;
    sink = sum;
    return spent;
}

/* Finds how many calls take a twentieth of a second, one where that is more already, and answers the seconds of one. */
static double first_run(call *f, uint64_t *n)
{
    for (*n = 1;;) {
        double spent = run(f, *n);
        if (spent > 0.05)
            return spent / (double)*n;
        *n = spent > 0.002 ? (uint64_t)((double)*n * 0.06 / spent) + 1 : 4 * *n;
    }
}

enum { LIBRARY, PLAIN, FLINT, COLUMNS };

static void print_time(double t)
{
    if (t < 1e-6)
        printf(" %9.1f ns", t * 1e9);
    else if (t < 1e-3)
        printf(" %9.2f us", t * 1e6);
    else if (t < 1)
        printf(" %9.2f ms", t * 1e3);
    else
        printf(" %9.2f s ", t);
}

/* One row: the best of five runs, taken in turn so that a change of the machine's speed meets all columns. A call that takes
 * longer than a second is made once. */
static void row(const char *what, call *const calls[COLUMNS])
{
    uint64_t n[COLUMNS] = {0};
    double best[COLUMNS] = {0};
    for (int c = 0; c < COLUMNS; c++)
        if (calls[c])
            best[c] = first_run(calls[c], &n[c]);
    for (int i = 1; i < 5; i++)
        for (int c = 0; c < COLUMNS; c++)
            if (calls[c] && best[c] < 1) {
                double t = run(calls[c], n[c]) / (double)n[c];
                if (t < best[c])
                    best[c] = t;
            }
    printf("%-28s", what);
    print_time(best[LIBRARY]);
    for (int c = 1; c < COLUMNS; c++) {
        if (calls[c]) {
            print_time(best[c]);
            printf(" %9.1f", best[c] / best[LIBRARY]);
        } else {
            printf(" %12s %9s", "-", "-");
        }
    }
    printf("\n");
    fflush(stdout);
}

static void must_be_same(const char *what, bool same)
{
    if (!same) {
        printf("%s: the answers differ\n", what);
        exit(1);
    }
}

/* ---- inputs ---- */

enum { INPUTS = 64 };

static uint64_t random_state = 1;

static uint64_t random_number(void)
{
    random_state = random_state * 6364136223846793005u + 1442695040888963407u;
    return random_state >> 33;
}

/* The bits of random fractions inside the limits. */
static uint8_t bursts[INPUTS][CJ_MOST_BITS / 8];
static uint32_t burst_bits;

static void make_bursts(void)
{
    for (int i = 0; i < INPUTS; i++) {
        int64_t q = (int64_t)(random_number() % CJ_LIMIT) | 1;
        int64_t p = (int64_t)(random_number() % (2u * CJ_LIMIT + 1)) - CJ_LIMIT;
        for (int k = 0; k < CJ_MOST_BITS; k++) {
            int64_t bit = p & 1;
            bursts[i][k / 8] |= (uint8_t)(bit << (k % 8));
            p = (p - bit * q) / 2;
        }
    }
}

/* ---- learning ---- */

static uint32_t learn_library(unsigned i)
{
    cj_fraction x = cj_learn(bursts[i % INPUTS], sizeof bursts[0], burst_bits);
    return 3 * (uint32_t)x.p + x.q;
}

static uint32_t learn_plain(unsigned i)
{
    cj_fraction x = plain_learn(bursts[i % INPUTS], burst_bits);
    return 3 * (uint32_t)x.p + x.q;
}

#ifdef WITH_FLINT
/* FLINT is handed whole numbers, not bytes: the conversion is not timed. */
static fmpz_t values[INPUTS], modulus, limit;
static fmpq_t result;

static void make_values(void)
{
    fmpz_init(modulus);
    fmpz_init_set_ui(limit, CJ_LIMIT);
    fmpq_init(result);
    fmpz_one(modulus);
    fmpz_mul_2exp(modulus, modulus, burst_bits);
    for (int i = 0; i < INPUTS; i++) {
        fmpz_init(values[i]);
        for (uint32_t k = 0; k < burst_bits; k++)
            if (bursts[i][k / 8] >> (k % 8) & 1)
                fmpz_setbit(values[i], k);
    }
}

static uint32_t learn_flint(unsigned i)
{
    if (!fmpq_reconstruct_fmpz_2(result, values[i % INPUTS], modulus, limit, limit))
        return 0;
    return 3 * (uint32_t)fmpz_get_si(fmpq_numref(result)) + (uint32_t)fmpz_get_si(fmpq_denref(result));
}
#endif

static void bench_learning(uint32_t bits)
{
    call *calls[COLUMNS] = {learn_library, learn_plain, NULL};
    char what[32];
    burst_bits = bits;
    for (unsigned i = 0; i < INPUTS; i++)
        must_be_same("learning", learn_library(i) == learn_plain(i));
#ifdef WITH_FLINT
    make_values();
    calls[FLINT] = learn_flint;
    for (unsigned i = 0; i < INPUTS; i++)
        must_be_same("learning by FLINT", learn_library(i) == learn_flint(i));
#endif
    snprintf(what, sizeof what, "learn, %u bits", (unsigned)bits);
    row(what, calls);
}

/* ---- whitening ---- */

static uint8_t payload[CJ_WHITEN_BYTES];
static const cj_register whitening = {1073741789u, 123456789u, 5};

static uint32_t whiten_library(unsigned i)
{
    cj_register r = whitening;
    (void)i;
    return cj_whiten(&r, payload, sizeof payload) + payload[7] + r.cells;
}

static uint32_t whiten_plain(unsigned i)
{
    cj_register r = whitening;
    (void)i;
    return plain_whiten(&r, payload, sizeof payload) + payload[7] + r.cells;
}

static void bench_whitening(void)
{
    call *calls[COLUMNS] = {whiten_library, whiten_plain, NULL};
    memset(payload, 0, sizeof payload);
    whiten_library(0);
    whiten_plain(0);
    for (size_t i = 0; i < sizeof payload; i++)
        must_be_same("whitening", payload[i] == 0);
    row("whiten, 512 bytes", calls);
}

/* ---- walking ---- */

static cj_register walking;

static uint32_t walk_library(unsigned i)
{
    (void)i;
    return cj_walk(walking, UINT32_MAX).sum;
}

static uint32_t walk_plain(unsigned i)
{
    (void)i;
    return plain_walk(walking, UINT32_MAX).sum;
}

/* 2 has the order q - 1 modulo both q, so that no walk is longer for a q of their size. */
static void bench_walking(uint32_t q, const char *what)
{
    call *calls[COLUMNS] = {walk_library, walk_plain, NULL};
    walking = cj_load(-1, q).state;
    must_be_same("walking", walk_library(0) == q - 1 && (q > 1u << 20 || walk_plain(0) == q - 1));
    row(what, calls);
}

/* ---- the sheet ---- */

static cj_register registers[INPUTS];

static uint32_t sheet_library(unsigned i)
{
    cj_storage x = cj_sheet(registers[i % INPUTS]);
    return 64 * x.cells + x.memory_bits;
}

static uint32_t sheet_plain(unsigned i)
{
    cj_storage x = plain_sheet(registers[i % INPUTS]);
    return 64 * x.cells + x.memory_bits;
}

/* Of memories of every width. */
static void bench_sheet(void)
{
    call *calls[COLUMNS] = {sheet_library, sheet_plain, NULL};
    for (unsigned i = 0; i < INPUTS; i++) {
        uint32_t q = (uint32_t)(random_number() % CJ_LIMIT) | 1;
        int32_t m = (int32_t)(random_number() % CJ_MOST_MEMORY >> i % 30);
        registers[i] = (cj_register){q, 0, i % 2 == 0 ? m : -m};
        must_be_same("the sheet", sheet_library(i) == sheet_plain(i));
    }
    row("sheet", calls);
}

/* ---- taking ---- */

static uint8_t store[CJ_STORE_BYTES], block[CJ_BLOCK_BYTES];

static uint32_t take_library(unsigned i)
{
    (void)i;
    memset(store, 0, sizeof store);
    return cj_take(store, sizeof store, block, sizeof block).refusal + store[99];
}

static uint32_t take_plain(unsigned i)
{
    (void)i;
    memset(store, 0, sizeof store);
    return plain_take(store, block, sizeof block).refusal + store[99];
}

/* One record of `bits` bits at the place, and the place behind it. */
static size_t put_record(size_t at, unsigned meter, unsigned bits)
{
    const uint8_t header[] = {0x5A, 0xC3, 0, (uint8_t)meter, (uint8_t)(bits >> 8), (uint8_t)bits};
    size_t bytes = (bits + 7) / 8;
    memcpy(block + at, header, sizeof header);
    for (size_t i = 0; i < bytes; i++)
        block[at + sizeof header + i] = (uint8_t)random_number();
    if (bits % 8 != 0)
        block[at + sizeof header + bytes - 1] &= (uint8_t)((1 << bits % 8) - 1);
    return at + sizeof header + bytes;
}

/* A block of 16,384 bytes, into a fresh store: records of 509 bits, so that most do not begin at a whole byte of their place. */
static void bench_taking(void)
{
    static uint8_t taken[CJ_STORE_BYTES];
    call *calls[COLUMNS] = {take_library, take_plain, NULL};
    size_t at = 0;
    unsigned meter = 0;
    while (CJ_BLOCK_BYTES - at >= 140)
        at = put_record(at, meter++ % CJ_METERS + 1, 509);
    unsigned left = (unsigned)(CJ_BLOCK_BYTES - at) - 2 * CJ_HEADER_BYTES;
    at = put_record(at, meter++ % CJ_METERS + 1, left / 2 * 8);
    at = put_record(at, meter++ % CJ_METERS + 1, (left - left / 2) * 8);
    must_be_same("taking", at == CJ_BLOCK_BYTES);
    take_library(0);
    must_be_same("taking", store[0] != 0);
    memcpy(taken, store, sizeof store);
    take_plain(0);
    must_be_same("taking", memcmp(taken, store, sizeof store) == 0);
    row("take a block, 16,384 bytes", calls);
}

static void print_machine(void)
{
    char line[256];
    FILE *f = fopen("/proc/cpuinfo", "r");
    printf("machine:  ");
    while (f && fgets(line, sizeof line, f))
        if (strncmp(line, "model name", 10) == 0 && strchr(line, ':')) {
            printf("%s", strchr(line, ':') + 2);
            break;
        }
    if (f)
        fclose(f);
    printf("plain C:  %s %s\n", __VERSION__, FLAGS);
    printf("library:  target/staticlib/libcapi.a as rt builds it\n");
#ifdef WITH_FLINT
    printf("FLINT:    %s, fmpq_reconstruct_fmpz_2\n", FLINT_VERSION);
#else
    printf("FLINT:    not installed here (Debian's libflint-dev), so it is left out\n");
#endif
    printf("Processor time for one call, the best of five runs (of one, where a call takes longer than a second); beside it, how many times the library's.\n\n");
}

int main(void)
{
    print_machine();
    printf("%-28s %12s %12s %9s %12s %9s\n", "", "library", "plain C", "times", "FLINT", "times");
    make_bursts();
    bench_learning(61);
    bench_learning(128);
    bench_learning(512);
    bench_learning(4096);
    bench_whitening();
    bench_walking(65371, "walk, q = 65371");
    bench_walking(1073741789u, "walk, q = 1073741789");
    bench_sheet();
    bench_taking();
    return 0;
}
