/*
 * Calls every function through the header, at its limits and one past, as C99 and as C++. Every limit and every refusal is written by its name in
 * the header and by nothing else, so that a name with another number makes a wrong call or a wrong comparison. Buffers are larger than any limit.
 */
#include "cocklejoist.h"

#include <stdio.h>
#include <string.h>

static unsigned failures, checks;

static void check(int holds, const char *what, int line)
{
    checks++;
    if (!holds) {
        failures++;
        printf("calls.c:%d: %s\n", line, what);
    }
}
#define CHECK(fact) check((fact) ? 1 : 0, #fact, __LINE__)

enum { ROOM = 65536 };

static uint8_t store[ROOM], block[ROOM], bytes[ROOM], before[ROOM];

/* ---- comparing whole answers ---- */

static int is_pair(cj_fraction x, int32_t p, uint32_t q) { return x.refusal == CJ_OK && x.p == p && x.q == q; }
static int no_pair(cj_fraction x, uint32_t refusal) { return x.refusal == refusal && x.p == 0 && x.q == 0; }

static cj_register made(uint32_t q, uint32_t cells, int32_t memory)
{
    cj_register r;
    r.q = q;
    r.cells = cells;
    r.memory = memory;
    return r;
}

static int is_register(cj_register r, uint32_t q, uint32_t cells, int32_t memory) { return r.q == q && r.cells == cells && r.memory == memory; }
static int is_walk(cj_walked x, uint32_t lead, uint32_t period) { return x.refusal == CJ_OK && x.lead == lead && x.period == period && x.sum == lead + period; }
static int no_walk(cj_walked x, uint32_t refusal) { return x.refusal == refusal && x.lead == 0 && x.period == 0 && x.sum == 0; }
static int is_taken(cj_taken x, uint32_t refusal, uint32_t place) { return x.refusal == refusal && x.place == place; }

static int is_record(cj_record x, uint32_t count, uint32_t antenna, uint32_t start, uint32_t length)
{
    return x.refusal == CJ_OK && x.place == 0 && x.count == count && x.antenna == antenna && x.start == start && x.length == length;
}

static int no_record(cj_record x, uint32_t refusal, uint32_t place)
{
    return x.refusal == refusal && x.place == place && x.count == 0 && x.antenna == 0 && x.start == 0 && x.length == 0;
}

/* ---- making blocks and stores ---- */

/* Writes a record of `count` bits, all of them zero but the first, and answers the first byte behind it. */
static size_t put_record(uint8_t *to, uint32_t meter, uint32_t count)
{
    size_t size = CJ_HEADER_BYTES + (count + 7) / 8;
    memset(to, 0, size);
    to[0] = 0x5A;
    to[1] = 0xC3;
    to[2] = (uint8_t)(meter >> 8);
    to[3] = (uint8_t)meter;
    to[4] = (uint8_t)(count >> 8);
    to[5] = (uint8_t)count;
    to[CJ_HEADER_BYTES] = 1;
    return size;
}

/* Fills `size` bytes with records, the meters in turn, so that no place is filled beyond its bits. */
static void fill_block(uint8_t *to, size_t size)
{
    size_t largest = CJ_HEADER_BYTES + CJ_RECORD_BITS / 8;
    uint32_t meter = 0;
    while (size > 0) {
        size_t next = size >= 2 * largest ? largest : size > largest ? size / 2 : size;
        put_record(to, meter % CJ_METERS + 1, (uint32_t)(next - CJ_HEADER_BYTES) * 8);
        to += next;
        size -= next;
        meter++;
    }
}

static uint8_t *place_of(uint32_t meter) { return store + (meter - 1) * CJ_PLACE_BYTES; }

static void fresh_store(void) { memset(store, 0, sizeof store); }

/* The place of a meter with `count` bits, all of them zero but the first. */
static void fill_place(uint32_t meter, uint32_t count)
{
    place_of(meter)[0] = (uint8_t)(count >> 8);
    place_of(meter)[1] = (uint8_t)count;
    place_of(meter)[2] = 1;
}

/* ---- the functions, in the header's order ---- */

static void version(void) { CHECK(cj_version() == CJ_VERSION); }

static void learn(void)
{
    memset(bytes, 0, sizeof bytes);
    bytes[0] = 1; /* (1, 1) */
    CHECK(is_pair(cj_learn(bytes, CJ_MOST_BITS / 8, CJ_MOST_BITS), 1, 1));
    CHECK(no_pair(cj_learn(bytes, sizeof bytes, CJ_MOST_BITS + 1), CJ_BURST_TOO_LONG));
    CHECK(no_pair(cj_learn(bytes, 0, UINT64_MAX), CJ_BURST_TOO_LONG));
    CHECK(no_pair(cj_learn(bytes, CJ_MOST_BITS / 8 - 1, CJ_MOST_BITS), CJ_BYTES_MISSING));
    CHECK(is_pair(cj_learn(bytes, CJ_MOST_BITS / 8 - 1, CJ_MOST_BITS - 8), 1, 1));
    CHECK(no_pair(cj_learn(bytes, 0, 1), CJ_BYTES_MISSING));
    CHECK(is_pair(cj_learn(bytes, 0, 0), 0, 1));
    /* the bench's longest runs of zeros */
    bytes[0] = 0;
    bytes[3] = 0x20;
    CHECK(is_pair(cj_learn(bytes, 4, 30), 536870912, 1));
    bytes[3] = 0x40;
    CHECK(no_pair(cj_learn(bytes, 4, 31), CJ_NO_PAIR));
    /* the largest pair, from the first 64 bits that it gives */
    {
        uint64_t word = cj_output_word(-CJ_LIMIT, CJ_LIMIT - 2).word;
        int i;
        for (i = 0; i < 8; i++) bytes[i] = (uint8_t)(word >> 8 * i);
        CHECK(is_pair(cj_learn(bytes, 8, 64), -CJ_LIMIT, CJ_LIMIT - 2));
    }
}

static void learn_meter(void)
{
    fresh_store();
    fill_place(1, CJ_MOST_BITS);
    fill_place(CJ_METERS, 1);
    CHECK(is_pair(cj_learn_meter(store, CJ_STORE_BYTES, 1), 1, 1));
    CHECK(is_pair(cj_learn_meter(store, CJ_STORE_BYTES, CJ_METERS), 1, 1));
    CHECK(is_pair(cj_learn_meter(store, CJ_STORE_BYTES, CJ_METERS - 1), 0, 1));
    CHECK(no_pair(cj_learn_meter(store, CJ_STORE_BYTES, 0), CJ_METER_WRONG));
    CHECK(no_pair(cj_learn_meter(store, CJ_STORE_BYTES, CJ_METERS + 1), CJ_METER_WRONG));
    CHECK(no_pair(cj_learn_meter(store, CJ_STORE_BYTES - 1, 1), CJ_STORE_INVALID));
    CHECK(no_pair(cj_learn_meter(store, CJ_STORE_BYTES + 1, 0), CJ_STORE_INVALID));
    fill_place(1, CJ_MOST_BITS + 1);
    CHECK(no_pair(cj_learn_meter(store, CJ_STORE_BYTES, CJ_METERS), CJ_STORE_INVALID));
    fresh_store();
    fill_place(2, 31);
    place_of(2)[2] = 0;
    place_of(2)[5] = 0x40; /* thirty zeros, then 1 */
    CHECK(no_pair(cj_learn_meter(store, CJ_STORE_BYTES, 2), CJ_NO_PAIR));
    place_of(2)[5] = 0x80; /* a bit at the count */
    CHECK(no_pair(cj_learn_meter(store, CJ_STORE_BYTES, 1), CJ_STORE_INVALID));
}

static void read_back(void)
{
    CHECK(is_pair(cj_read_back(made(15, 5, 0)), -1, 3));
    CHECK(is_pair(cj_read_back(made(1, 0, 0)), 0, 1));
    CHECK(is_pair(cj_read_back(cj_load(CJ_LIMIT, CJ_LIMIT - 2).state), CJ_LIMIT, CJ_LIMIT - 2));
    CHECK(no_pair(cj_read_back(made(1, 0, CJ_MOST_MEMORY)), CJ_READ_BACK_OUTSIDE));
    CHECK(no_pair(cj_read_back(made(1, 0, -CJ_MOST_MEMORY)), CJ_READ_BACK_OUTSIDE));
    CHECK(no_pair(cj_read_back(made(1, 0, CJ_MOST_MEMORY + 1)), CJ_REGISTER_INVALID));
    CHECK(no_pair(cj_read_back(made(1, 0, -CJ_MOST_MEMORY - 1)), CJ_REGISTER_INVALID));
    CHECK(no_pair(cj_read_back(made(1, 2, 0)), CJ_REGISTER_INVALID));
}

static void load(void)
{
    cj_loaded x = cj_load(-1, 37);
    CHECK(x.refusal == CJ_OK && is_register(x.state, 37, 19, 0));
    CHECK(cj_load(CJ_LIMIT, CJ_LIMIT).refusal == CJ_OK && cj_load(-CJ_LIMIT, CJ_LIMIT).refusal == CJ_OK);
    x = cj_load(CJ_LIMIT + 1, CJ_LIMIT);
    CHECK(x.refusal == CJ_OUTSIDE_LIMITS && is_register(x.state, 0, 0, 0));
    CHECK(cj_load(-CJ_LIMIT - 1, CJ_LIMIT).refusal == CJ_OUTSIDE_LIMITS);
    CHECK(cj_load(1, CJ_LIMIT + 2).refusal == CJ_OUTSIDE_LIMITS);
    CHECK(cj_load(1, 0).refusal == CJ_OUTSIDE_LIMITS && cj_load(1, 2).refusal == CJ_OUTSIDE_LIMITS);
    CHECK(cj_load(1, UINT32_MAX).refusal == CJ_OUTSIDE_LIMITS && cj_load(INT32_MIN, 1).refusal == CJ_OUTSIDE_LIMITS);
}

static void step(void)
{
    cj_stepped x = cj_step(made(37, 19, 0));
    CHECK(x.refusal == CJ_OK && x.bit == 1 && is_register(x.state, 37, 9, 1));
    x = cj_step(made(1, 0, -1)); /* half of -1 is -1 */
    CHECK(x.refusal == CJ_OK && x.bit == 0 && is_register(x.state, 1, 1, -1));
    x = cj_step(made(CJ_LIMIT, 0, CJ_MOST_MEMORY));
    CHECK(x.refusal == CJ_OK && x.bit == 0 && is_register(x.state, CJ_LIMIT, 0, CJ_MOST_MEMORY / 2));
    x = cj_step(made(CJ_LIMIT, 0, -CJ_MOST_MEMORY));
    CHECK(x.refusal == CJ_OK && x.bit == 0 && is_register(x.state, CJ_LIMIT, 0, -(CJ_MOST_MEMORY / 2)));
    x = cj_step(made(CJ_LIMIT, 0, CJ_MOST_MEMORY + 1));
    CHECK(x.refusal == CJ_REGISTER_INVALID && x.bit == 0 && is_register(x.state, CJ_LIMIT, 0, CJ_MOST_MEMORY + 1));
    x = cj_step(made(CJ_LIMIT, 0, -CJ_MOST_MEMORY - 1));
    CHECK(x.refusal == CJ_REGISTER_INVALID && x.bit == 0 && is_register(x.state, CJ_LIMIT, 0, -CJ_MOST_MEMORY - 1));
    CHECK(cj_step(made(CJ_LIMIT + 2, 0, 0)).refusal == CJ_REGISTER_INVALID);
    CHECK(cj_step(made(37, 31, 0)).refusal == CJ_OK && cj_step(made(37, 32, 0)).refusal == CJ_REGISTER_INVALID);
}

static void walk(void)
{
    cj_register r = made(37, 19, 0);
    CHECK(is_walk(cj_walk(r, 36), 0, 36));
    CHECK(no_walk(cj_walk(r, 35), CJ_ALLOWANCE_TOO_SMALL));
    CHECK(is_walk(cj_walk(made(1, 1, -1), 2), 1, 1) && no_walk(cj_walk(made(1, 1, -1), 1), CJ_ALLOWANCE_TOO_SMALL));
    CHECK(is_walk(cj_walk(made(1, 0, -1), UINT32_MAX), 2, 1));
    CHECK(no_walk(cj_walk(made(37, 32, 0), UINT32_MAX), CJ_REGISTER_INVALID));
    CHECK(no_walk(cj_walk(made(37, 19, CJ_MOST_MEMORY + 1), 0), CJ_REGISTER_INVALID));
    CHECK(cj_walk(made(CJ_LIMIT, 0, CJ_MOST_MEMORY), UINT32_MAX).refusal == CJ_OK);
}

static void sheet(void)
{
    cj_storage x = cj_sheet(made(37, 19, 0));
    CHECK(x.refusal == CJ_OK && x.cells == 5 && x.memory_bits == 3);
    x = cj_sheet(made(CJ_LIMIT, 0, CJ_MOST_MEMORY)); /* 2^30 takes a bit more than -2^30; q + 1 has one one */
    CHECK(x.refusal == CJ_OK && x.cells == 30 && x.memory_bits == 32);
    CHECK(cj_sheet(made(CJ_LIMIT, 0, -CJ_MOST_MEMORY)).memory_bits == 31);
    CHECK(cj_sheet(made(CJ_LIMIT, 0, 0)).memory_bits == 1);
    x = cj_sheet(made(CJ_LIMIT, 0, -CJ_MOST_MEMORY - 1));
    CHECK(x.refusal == CJ_REGISTER_INVALID && x.cells == 0 && x.memory_bits == 0);
    CHECK(cj_sheet(made(CJ_LIMIT + 2, 0, 0)).refusal == CJ_REGISTER_INVALID);
}

static void period(void)
{
    cj_entry x = cj_period(CJ_TABLE_LARGEST);
    CHECK(x.refusal == CJ_OK && x.period == 10); /* 2^10 - 1 */
    x = cj_period(1);
    CHECK(x.refusal == CJ_OK && x.period == 1);
    x = cj_period(CJ_TABLE_LARGEST + 2);
    CHECK(x.refusal == CJ_OUTSIDE_LIMITS && x.period == 0);
    CHECK(cj_period(0).refusal == CJ_OUTSIDE_LIMITS && cj_period(2).refusal == CJ_OUTSIDE_LIMITS);
}

static void output_word(void)
{
    cj_word x = cj_output_word(-1, 37);
    CHECK(x.refusal == CJ_OK && x.word * 37 == UINT64_MAX);
    x = cj_output_word(CJ_LIMIT, CJ_LIMIT);
    CHECK(x.refusal == CJ_OK && x.word == 1);
    CHECK(cj_output_word(-CJ_LIMIT, CJ_LIMIT).word == UINT64_MAX);
    x = cj_output_word(CJ_LIMIT + 1, CJ_LIMIT);
    CHECK(x.refusal == CJ_OUTSIDE_LIMITS && x.word == 0);
    CHECK(cj_output_word(-CJ_LIMIT - 1, CJ_LIMIT).refusal == CJ_OUTSIDE_LIMITS);
    CHECK(cj_output_word(1, CJ_LIMIT + 2).refusal == CJ_OUTSIDE_LIMITS && cj_output_word(1, 2).refusal == CJ_OUTSIDE_LIMITS);
}

static void whiten(void)
{
    cj_register r = made(37, 19, 0);
    cj_register stepped = r;
    int i;
    for (i = 0; i < 8; i++) stepped = cj_step(stepped).state;
    memset(bytes, 0, sizeof bytes);
    CHECK(cj_whiten(&r, bytes, 1) == CJ_OK && bytes[0] == 0x53 && bytes[1] == 0);
    CHECK(is_register(r, stepped.q, stepped.cells, stepped.memory));
    CHECK(cj_whiten(&r, bytes, 0) == CJ_OK && is_register(r, stepped.q, stepped.cells, stepped.memory));
    /* as many bytes as may be whitened, and the same start again */
    r = made(37, 19, 0);
    memset(bytes, 0, sizeof bytes);
    CHECK(cj_whiten(&r, bytes, CJ_WHITEN_BYTES) == CJ_OK);
    CHECK(bytes[0] == 0x53 && bytes[CJ_WHITEN_BYTES] == 0);
    r = made(37, 19, 0);
    CHECK(cj_whiten(&r, bytes, CJ_WHITEN_BYTES) == CJ_OK);
    CHECK(memcmp(bytes, before, CJ_WHITEN_BYTES + 1) == 0);
    /* one past, and a register that is not valid: nothing has changed */
    r = made(37, 19, 0);
    CHECK(cj_whiten(&r, bytes, CJ_WHITEN_BYTES + 1) == CJ_TOO_MUCH_TO_WHITEN);
    CHECK(is_register(r, 37, 19, 0) && memcmp(bytes, before, CJ_WHITEN_BYTES + 2) == 0);
    r = made(37, 19, CJ_MOST_MEMORY + 1);
    CHECK(cj_whiten(&r, bytes, CJ_WHITEN_BYTES + 1) == CJ_REGISTER_INVALID);
    CHECK(is_register(r, 37, 19, CJ_MOST_MEMORY + 1) && memcmp(bytes, before, CJ_WHITEN_BYTES + 2) == 0);
}

/* A block that is refused leaves every byte of the store as it was. */
static void check_refused(size_t size, uint32_t refusal, uint32_t place, int line)
{
    memcpy(bytes, store, sizeof store);
    check(is_taken(cj_take(store, CJ_STORE_BYTES, block, size), refusal, place), "the block is refused with another number or place", line);
    check(memcmp(bytes, store, sizeof store) == 0, "a refused block has changed the store", line);
    check(no_record(cj_read(block, size, block, size, 1, 1), refusal, place), "two such blocks are refused with another number or place", line);
}
#define CHECK_REFUSED(size, refusal, place) check_refused(size, refusal, place, __LINE__)

static void take_records(void)
{
    size_t first = put_record(block, 2, 9), end;
    fresh_store();
    end = first + put_record(block + first, CJ_METERS, CJ_RECORD_BITS);
    CHECK(end == first + CJ_HEADER_BYTES + CJ_RECORD_BITS / 8);
    CHECK(is_taken(cj_take(store, CJ_STORE_BYTES, block, end), CJ_OK, 0));
    CHECK(place_of(2)[1] == 9 && place_of(2)[2] == 1 && place_of(2)[3] == 0);
    CHECK(place_of(CJ_METERS)[0] == CJ_RECORD_BITS / 256 && place_of(CJ_METERS)[1] == CJ_RECORD_BITS % 256 && place_of(CJ_METERS)[2] == 1);
    CHECK_REFUSED(end - 1, CJ_RECORD_CUT, (uint32_t)first);
    CHECK_REFUSED(first + CJ_HEADER_BYTES - 1, CJ_RECORD_CUT, (uint32_t)first);
    CHECK_REFUSED(first + 1, CJ_RECORD_CUT, (uint32_t)first);
    put_record(block + first, CJ_METERS, CJ_RECORD_BITS + 1);
    CHECK_REFUSED(first + CJ_HEADER_BYTES, CJ_BIT_COUNT_WRONG, (uint32_t)first);
    put_record(block + first, CJ_METERS, 0);
    CHECK_REFUSED(first + CJ_HEADER_BYTES, CJ_BIT_COUNT_WRONG, (uint32_t)first);
    put_record(block + first, CJ_METERS + 1, 1);
    CHECK_REFUSED(first + CJ_HEADER_BYTES + 1, CJ_METER_WRONG, (uint32_t)first);
    put_record(block + first, 0, 1);
    CHECK_REFUSED(first + CJ_HEADER_BYTES + 1, CJ_METER_WRONG, (uint32_t)first);
    put_record(block + first, 1, 1);
    block[first + 1] ^= 1;
    CHECK_REFUSED(first + CJ_HEADER_BYTES + 1, CJ_MARK_WRONG, (uint32_t)first);
    put_record(block + first, 1, 1);
    block[first + CJ_HEADER_BYTES] = 3;
    CHECK_REFUSED(first + CJ_HEADER_BYTES + 1, CJ_SPARE_BIT_SET, (uint32_t)first);
}

static void take(void)
{
    size_t one = put_record(block, 1, 1);
    take_records();
    /* a place is filled to its last bit, and not one further */
    fresh_store();
    fill_place(1, CJ_MOST_BITS - 1);
    put_record(block, 1, 1);
    CHECK(is_taken(cj_take(store, CJ_STORE_BYTES, block, one), CJ_OK, 0));
    CHECK(place_of(1)[0] == CJ_MOST_BITS / 256 && place_of(1)[1] == CJ_MOST_BITS % 256 && place_of(1)[CJ_PLACE_BYTES - 1] == 0x80);
    memcpy(bytes, store, sizeof store);
    CHECK(is_taken(cj_take(store, CJ_STORE_BYTES, block, one), CJ_PLACE_FULL, 0));
    put_record(block, 2, 1);
    put_record(block + one, 1, 1);
    CHECK(is_taken(cj_take(store, CJ_STORE_BYTES, block, 2 * one), CJ_PLACE_FULL, (uint32_t)one));
    CHECK(memcmp(bytes, store, sizeof store) == 0);
    /* the longest block, and one byte more */
    fresh_store();
    fill_block(block, CJ_BLOCK_BYTES);
    CHECK(is_taken(cj_take(store, CJ_STORE_BYTES, block, CJ_BLOCK_BYTES), CJ_OK, 0));
    CHECK(place_of(1)[2] == 1 && place_of(CJ_METERS)[2] == 1);
    fresh_store();
    CHECK_REFUSED(CJ_BLOCK_BYTES + 1, CJ_BLOCK_TOO_LONG, 0);
    /* a store that is none comes before the block */
    CHECK(is_taken(cj_take(store, CJ_STORE_BYTES - 1, block, CJ_BLOCK_BYTES + 1), CJ_STORE_INVALID, 0));
    CHECK(is_taken(cj_take(store, CJ_STORE_BYTES + 1, block, CJ_BLOCK_BYTES), CJ_STORE_INVALID, 0));
    fill_place(CJ_METERS, CJ_MOST_BITS + 1);
    CHECK(is_taken(cj_take(store, CJ_STORE_BYTES, block, CJ_BLOCK_BYTES), CJ_STORE_INVALID, 0));
}

static void read_two(void)
{
    size_t first = put_record(block, 5, 8), end;
    end = first + put_record(block + first, CJ_METERS, CJ_RECORD_BITS);
    put_record(bytes, 5, 17);
    CHECK(is_record(cj_read(block, end, bytes, CJ_HEADER_BYTES + 3, CJ_METERS, 1), CJ_RECORD_BITS, 1, (uint32_t)first + CJ_HEADER_BYTES, CJ_RECORD_BITS / 8));
    CHECK(is_record(cj_read(block, end - 1, bytes, CJ_HEADER_BYTES + 3, 5, 1), 17, 2, CJ_HEADER_BYTES, 3));
    CHECK(no_record(cj_read(block, end - 1, bytes, CJ_HEADER_BYTES + 2, 5, 1), CJ_RECORD_CUT, (uint32_t)first));
    CHECK(no_record(cj_read(block, end, bytes, 0, CJ_METERS + 1, 1), CJ_METER_WRONG, 0));
    CHECK(no_record(cj_read(block, end, bytes, 0, 0, 0), CJ_METER_WRONG, 0));
    CHECK(no_record(cj_read(block, end, bytes, 0, CJ_METERS, 2), CJ_NO_RECORD, 0));
    CHECK(no_record(cj_read(block, end, bytes, 0, CJ_METERS, 0), CJ_NO_RECORD, 0));
    /* the ordinal is the last parameter, and counts the meter's own records alone */
    first = put_record(block, 2, 3);
    end = first + put_record(block + first, 1, 5);
    end += put_record(block + end, 1, 7);
    CHECK(is_record(cj_read(block, end, bytes, 0, 1, 2), 7, 1, (uint32_t)(end - 1), 1));
    CHECK(is_record(cj_read(block, end, bytes, 0, 2, 1), 3, 1, CJ_HEADER_BYTES, 1));
    /* the longest blocks, and one byte more */
    fill_block(block, CJ_BLOCK_BYTES);
    CHECK(is_record(cj_read(block, CJ_BLOCK_BYTES, bytes, 0, 1, 1), CJ_RECORD_BITS, 1, CJ_HEADER_BYTES, CJ_RECORD_BITS / 8));
    CHECK(no_record(cj_read(block, CJ_BLOCK_BYTES + 1, block, CJ_BLOCK_BYTES + 1, 1, 1), CJ_BLOCK_TOO_LONG, 0));
    CHECK(cj_read(block, CJ_BLOCK_BYTES + 1, block, CJ_BLOCK_BYTES, 1, 1).antenna == 2);
}

/* A pointer with length 0 may be null. */
static void nothing_lent(void)
{
    cj_register r = made(37, 19, 0);
    fresh_store();
    put_record(block, 3, 8);
    CHECK(is_pair(cj_learn(NULL, 0, 0), 0, 1));
    CHECK(no_pair(cj_learn(NULL, 0, 1), CJ_BYTES_MISSING));
    CHECK(no_pair(cj_learn(NULL, 0, CJ_MOST_BITS), CJ_BYTES_MISSING));
    CHECK(no_pair(cj_learn(NULL, 0, CJ_MOST_BITS + 1), CJ_BURST_TOO_LONG));
    CHECK(no_pair(cj_learn_meter(NULL, 0, 1), CJ_STORE_INVALID));
    CHECK(cj_whiten(&r, NULL, 0) == CJ_OK && is_register(r, 37, 19, 0));
    CHECK(is_taken(cj_take(store, CJ_STORE_BYTES, NULL, 0), CJ_OK, 0));
    CHECK(is_taken(cj_take(NULL, 0, block, CJ_HEADER_BYTES + 1), CJ_STORE_INVALID, 0));
    CHECK(is_taken(cj_take(NULL, 0, NULL, 0), CJ_STORE_INVALID, 0));
    CHECK(no_record(cj_read(NULL, 0, NULL, 0, 3, 1), CJ_NO_RECORD, 0));
    CHECK(no_record(cj_read(NULL, 0, block, CJ_HEADER_BYTES + 1, 3, 1), CJ_NO_RECORD, 0));
    CHECK(no_record(cj_read(block, CJ_HEADER_BYTES, NULL, 0, 3, 1), CJ_NO_RECORD, 0));
    CHECK(is_record(cj_read(block, CJ_HEADER_BYTES + 1, NULL, 0, 3, 1), 8, 1, CJ_HEADER_BYTES, 1));
}

int main(void)
{
    version();
    learn();
    learn_meter();
    read_back();
    load();
    step();
    walk();
    sheet();
    period();
    output_word();
    whiten();
    take();
    read_two();
    nothing_lent();
    printf("%u checks, %u failed\n", checks, failures);
    return failures != 0;
}
