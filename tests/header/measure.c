/*
 * The longest calls of every function, for what they cost.
 *
 *     measure stack    prints of each function how many bytes of stack its calls take, the return address with them
 *     measure calls    makes each call once, for a tool that counts instructions
 *
 * The stack is measured on one of our own that was painted before: where the paint is gone, something was written. The same call of a function that does
 * nothing is measured too, so that what the caller itself takes is left out.
 */
#define _XOPEN_SOURCE 600
#include "cocklejoist.h"

#include <stdio.h>
#include <string.h>
#include <ucontext.h>

/* ---- the interface, and one of the same form that does nothing ---- */

typedef struct interface {
    uint32_t (*version)(void);
    cj_fraction (*learn)(const uint8_t *, size_t, uint64_t);
    cj_fraction (*learn_meter)(const uint8_t *, size_t, uint32_t);
    cj_fraction (*read_back)(cj_register);
    cj_loaded (*load)(int32_t, uint32_t);
    cj_stepped (*step)(cj_register);
    cj_walked (*walk)(cj_register, uint32_t);
    cj_storage (*sheet)(cj_register);
    cj_entry (*period)(uint32_t);
    cj_word (*output_word)(int32_t, uint32_t);
    uint32_t (*whiten)(cj_register *, uint8_t *, size_t);
    cj_taken (*take)(uint8_t *, size_t, const uint8_t *, size_t);
    cj_record (*read)(const uint8_t *, size_t, const uint8_t *, size_t, uint32_t, uint32_t);
} interface;

/* One return, and no byte of stack but the return address, under the type of each function. */
__asm__(".text\n.globl measure_nothing\nmeasure_nothing:\n\tret\n");
#define NOTHING __asm__("measure_nothing")

uint32_t no_version(void) NOTHING;
cj_fraction no_learn(const uint8_t *, size_t, uint64_t) NOTHING;
cj_fraction no_learn_meter(const uint8_t *, size_t, uint32_t) NOTHING;
cj_fraction no_read_back(cj_register) NOTHING;
cj_loaded no_load(int32_t, uint32_t) NOTHING;
cj_stepped no_step(cj_register) NOTHING;
cj_walked no_walk(cj_register, uint32_t) NOTHING;
cj_storage no_sheet(cj_register) NOTHING;
cj_entry no_period(uint32_t) NOTHING;
cj_word no_output_word(int32_t, uint32_t) NOTHING;
uint32_t no_whiten(cj_register *, uint8_t *, size_t) NOTHING;
cj_taken no_take(uint8_t *, size_t, const uint8_t *, size_t) NOTHING;
cj_record no_read(const uint8_t *, size_t, const uint8_t *, size_t, uint32_t, uint32_t) NOTHING;

static const interface library = {cj_version, cj_learn, cj_learn_meter, cj_read_back, cj_load, cj_step, cj_walk,
                                  cj_sheet, cj_period, cj_output_word, cj_whiten, cj_take, cj_read};
static const interface nothing = {no_version, no_learn, no_learn_meter, no_read_back, no_load, no_step, no_walk,
                                  no_sheet, no_period, no_output_word, no_whiten, no_take, no_read};
static const interface *volatile called = &library;

/* ---- inputs ---- */

enum { RECORD_SIZE = CJ_HEADER_BYTES + 1, RECORDS = CJ_BLOCK_BYTES / RECORD_SIZE };

static uint8_t store[CJ_STORE_BYTES], burst[CJ_MOST_BITS / 8], payload[CJ_WHITEN_BYTES];
static uint8_t shortest[CJ_BLOCK_BYTES], longest[CJ_BLOCK_BYTES], torn[CJ_BLOCK_BYTES];
static const uint8_t zeros[8];
static size_t shortest_size, longest_size;
static cj_register golden;

/* the refusal of the last call: one that is refused does not do its work, and shows nothing */
static volatile uint32_t refusal;

static void put_record(uint8_t *to, uint32_t meter, uint32_t bits)
{
    to[0] = 0x5A;
    to[1] = 0xC3;
    to[3] = (uint8_t)meter;
    to[4] = (uint8_t)(bits >> 8);
    to[5] = (uint8_t)bits;
}

static void make_inputs(void)
{
    uint32_t i;
    uint8_t *place = store + 2 * CJ_PLACE_BYTES;
    /* a prime near the limit: the bits of -1/q, and a place that is full of them; the next one has 60 zeros */
    cj_register r = cj_load(-1, 1073741789).state;
    cj_whiten(&r, burst, sizeof burst);
    place[0] = CJ_MOST_BITS >> 8;
    memcpy(place + 2, burst, sizeof burst);
    place[CJ_PLACE_BYTES + 1] = 60;
    /* two Fibonacci numbers: no division of such a size has more steps */
    golden = cj_load(-433494437, 701408733).state;
    /* as many records as a block can have, and as many bits; the one that is torn ends in half a record */
    for (i = 0; i < RECORDS; i++) put_record(shortest + i * RECORD_SIZE, i % CJ_METERS + 1, 1);
    shortest_size = (size_t)RECORDS * RECORD_SIZE;
    memcpy(torn, shortest, sizeof torn);
    torn[shortest_size] = 0x5A;
    for (i = 0; longest_size + CJ_HEADER_BYTES + CJ_RECORD_BITS / 8 <= CJ_BLOCK_BYTES; i++) {
        /* each place has a bit already, and room for seven whole records and one that is shorter */
        uint32_t bits = i < 7 * CJ_METERS ? CJ_RECORD_BITS : CJ_RECORD_BITS - 8;
        put_record(longest + longest_size, i % CJ_METERS + 1, bits);
        longest_size += CJ_HEADER_BYTES + bits / 8;
    }
}

/* ---- the calls, one to a function, so that the counting tool tells them apart ---- */

/* the largest prime below the limit; the square of a prime, 32,603, whose order of two takes the longest to find, as far from a loop as can be */
static const cj_register prime = {1073741789, 123456789, 5}, square = {1062955609, 0, -CJ_MOST_MEMORY};

static uint8_t to[CJ_STORE_BYTES];

static void call_version(void) { refusal = called->version() != CJ_VERSION; }
static void call_learn_all(void) { refusal = called->learn(burst, sizeof burst, CJ_MOST_BITS).refusal; }
static void call_learn_60(void) { refusal = called->learn(zeros, sizeof zeros, 60).refusal; }
static void call_learn_meter_all(void) { refusal = called->learn_meter(store, sizeof store, 3).refusal; }
static void call_learn_meter_60(void) { refusal = called->learn_meter(store, sizeof store, 4).refusal; }
static void call_read_back(void) { refusal = called->read_back(golden).refusal; }
static void call_load_limit(void) { refusal = called->load(-CJ_LIMIT, CJ_LIMIT).refusal; }
static void call_load_prime(void) { refusal = called->load(CJ_LIMIT, 1073741789).refusal; }
static void call_step(void) { refusal = called->step(prime).refusal; }
static void call_walk_prime(void) { refusal = called->walk(prime, UINT32_MAX).refusal; }
static void call_walk_square(void) { refusal = called->walk(square, UINT32_MAX).refusal; }
static void call_sheet(void) { refusal = called->sheet(prime).refusal; }
static void call_period(void) { refusal = called->period(CJ_TABLE_LARGEST).refusal; }
static void call_output_word(void) { refusal = called->output_word(-CJ_LIMIT, CJ_LIMIT).refusal; }
static void call_whiten(void)
{
    cj_register r = prime;
    refusal = called->whiten(&r, payload, sizeof payload);
}
static void call_take_shortest(void) { refusal = called->take(to, sizeof to, shortest, shortest_size).refusal; }
static void call_take_longest(void) { refusal = called->take(to, sizeof to, longest, longest_size).refusal; }
static void call_read(void) { refusal = called->read(torn, shortest_size + 1, shortest, shortest_size, 4, (RECORDS - 4) / CJ_METERS + 1).refusal; }

static const struct {
    const char *name;
    void (*call)(void);
} calls[] = {
    {"cj_version", call_version},
    {"cj_learn", call_learn_all},
    {"cj_learn", call_learn_60},
    {"cj_learn_meter", call_learn_meter_all},
    {"cj_learn_meter", call_learn_meter_60},
    {"cj_read_back", call_read_back},
    {"cj_load", call_load_limit},
    {"cj_load", call_load_prime},
    {"cj_step", call_step},
    {"cj_walk", call_walk_prime},
    {"cj_walk", call_walk_square},
    {"cj_sheet", call_sheet},
    {"cj_period", call_period},
    {"cj_output_word", call_output_word},
    {"cj_whiten", call_whiten},
    {"cj_take", call_take_shortest},
    {"cj_take", call_take_longest},
    {"cj_read", call_read},
};

/* A store in which every place has one bit, so that what is appended is shifted. */
static void make_store(void)
{
    int i;
    memset(to, 0, sizeof to);
    for (i = 0; i < CJ_METERS; i++) to[i * CJ_PLACE_BYTES + 1] = 1;
}

/* ---- the painted stack ---- */

enum { STACK = 1 << 18, RETURN_ADDRESS = 8 };

static uint8_t stack[STACK];
static ucontext_t here, there;

/* The paint of a byte is another at each place and in each coat, so that no word which happens to be written looks like it twice. */
static uint8_t paint(size_t at, unsigned coat) { return (uint8_t)(at * 37 + (at >> 8) * 11 + coat * 101 + 13); }

/* How far down a call writes on a stack that begins `off` bytes lower. */
static size_t depth_in(unsigned coat, void (*call)(void), const interface *of, size_t off)
{
    size_t low = 0, i;
    called = of;
    make_store();
    for (i = 0; i < sizeof stack; i++) stack[i] = paint(i, coat);
    getcontext(&there);
    there.uc_stack.ss_sp = stack;
    there.uc_stack.ss_size = sizeof stack - off;
    there.uc_link = &here;
    makecontext(&there, call, 0);
    swapcontext(&here, &there);
    called = &library;
    while (low < sizeof stack && stack[low] == paint(low, coat)) low++;
    return sizeof stack - off - low;
}

static size_t depth(void (*call)(void), const interface *of, size_t off)
{
    size_t first = depth_in(0, call, of, off), second = depth_in(1, call, of, off);
    return first > second ? first : second;
}

static int measure_stack(void)
{
    size_t i, off;
    for (i = 0; i < sizeof calls / sizeof calls[0]; i++) {
        size_t most = 0;
        /* where a function wants more alignment than the caller has, it takes more */
        for (off = 0; off < 64; off += 16) {
            size_t with = depth(calls[i].call, &library, off), without = depth(calls[i].call, &nothing, off);
            size_t own = with - without + RETURN_ADDRESS;
            if (own > most) most = own;
        }
        printf("%s %u\n", calls[i].name, (unsigned)most);
    }
    return 0;
}

int main(int count, char **word)
{
    size_t i;
    if (count != 2 || (strcmp(word[1], "stack") != 0 && strcmp(word[1], "calls") != 0)) {
        fprintf(stderr, "usage: measure stack | calls\n");
        return 2;
    }
    make_inputs();
    if (strcmp(word[1], "stack") == 0) return measure_stack();
    for (i = 0; i < sizeof calls / sizeof calls[0]; i++) {
        make_store();
        calls[i].call();
        if (refusal != CJ_OK) {
            fprintf(stderr, "measure: call %u, of %s, is refused with %u\n", (unsigned)i, calls[i].name, (unsigned)refusal);
            return 1;
        }
    }
    return 0;
}
