/*
 * What a firmware engineer would write from the paper and the rules, without a proof and without tricks from number theory:
 *   learning    the paper's figure 4, bit by bit, over the 61 bits that decide; the other bits are checked one by one
 *   stepping    the taps as a mask, and one count of ones
 *   whitening   eight steps for each byte
 *   the sheet   a width more and a width more, until both numbers fit
 *   walking     steps until the numerator is one that repeats, then until the saved state comes back
 *   taking      judge the store and the block, then shift each record's bytes into its place
 */
#include "plain.h"

#include <stdbool.h>

/* ---- learning ---- */

typedef struct {
    int64_t p, q;
} pair;

static int64_t size(pair x)
{
    int64_t p = x.p < 0 ? -x.p : x.p, q = x.q < 0 ? -x.q : x.q;
    return p > q ? p : q;
}

static pair plus(pair x, int64_t d, pair y)
{
    return (pair){x.p + d * y.p, x.q + d * y.q};
}

/* x + d*y with d odd and the least size: d is next to where the two coordinates are equal in size. */
static pair least(pair x, pair y)
{
    int64_t over[2] = {x.p - x.q, x.p + x.q}, under[2] = {y.p - y.q, y.p + y.q};
    pair best = plus(x, 1, y), other = plus(x, -1, y);
    if (size(other) < size(best))
        best = other;
    for (int i = 0; i < 2; i++) {
        if (under[i] == 0)
            continue;
        int64_t d = (-over[i] / under[i]) | 1;
        for (int64_t e = d - 2; e <= d + 2; e += 2) {
            other = plus(x, e, y);
            if (size(other) < size(best))
                best = other;
        }
    }
    return best;
}

static unsigned bit_at(const uint8_t *bytes, uint32_t i)
{
    return bytes[i / 8] >> (i % 8) & 1;
}

cj_fraction plain_learn(const uint8_t *bytes, uint32_t count)
{
    const cj_fraction none = {CJ_NO_PAIR, 0, 0};
    uint32_t k = 0;
    while (k < count && !bit_at(bytes, k))
        k++;
    if (k == count)
        return (cj_fraction){CJ_OK, 0, 1};
    if (k >= 30)
        return none;
    uint64_t value = (uint64_t)1 << k;
    pair f = {0, 2}, g = {(int64_t)value, 1};
    for (k++; k < count && k < 61; k++) {
        value |= (uint64_t)bit_at(bytes, k) << k;
        if (((((__int128)value * g.q - g.p) >> k) & 1) == 0) {
            f = (pair){2 * f.p, 2 * f.q};
        } else if (size(g) < size(f)) {
            pair h = least(f, g);
            f = (pair){2 * g.p, 2 * g.q};
            g = h;
        } else {
            g = least(g, f);
            f = (pair){2 * f.p, 2 * f.q};
        }
    }
    if (g.q < 0)
        g = (pair){-g.p, -g.q};
    if (size(g) > CJ_LIMIT)
        return none;
    int64_t rest = g.p;
    for (uint32_t i = 0; i < count; i++) {
        if ((unsigned)(rest & 1) != bit_at(bytes, i))
            return none;
        rest = (rest - (rest & 1) * g.q) / 2;
    }
    return (cj_fraction){CJ_OK, (int32_t)g.p, (uint32_t)g.q};
}

/* ---- the register ---- */

typedef struct {
    uint32_t mask, cells;
    int32_t memory;
    int top;
} state;

/* Tap k belongs to cell r - k: the mask holds the taps in the order of the cells. */
static state state_of(cj_register r)
{
    state s = {0, r.cells, r.memory, -1};
    for (uint32_t x = r.q + 1; x > 1; x /= 2)
        s.top++;
    for (int k = 1; k <= s.top + 1; k++)
        s.mask |= ((r.q + 1) >> k & 1) << (s.top + 1 - k);
    return s;
}

static inline unsigned step(state *s)
{
    unsigned bit = s->cells & 1;
    int32_t sum = s->memory + __builtin_popcount(s->cells & s->mask);
    s->cells = s->cells >> 1 | (uint32_t)(sum & 1) << s->top;
    s->memory = sum >> 1;
    return bit;
}

static inline bool same(const state *x, const state *y)
{
    return x->cells == y->cells && x->memory == y->memory;
}

uint32_t plain_whiten(cj_register *r, uint8_t *bytes, size_t len)
{
    if (len > CJ_WHITEN_BYTES)
        return CJ_TOO_MUCH_TO_WHITEN;
    state s = state_of(*r);
    for (size_t i = 0; i < len; i++) {
        unsigned word = 0;
        for (int k = 0; k < 8; k++)
            word |= step(&s) << k;
        bytes[i] ^= (uint8_t)word;
    }
    r->cells = s.cells;
    r->memory = s.memory;
    return CJ_OK;
}

/* The numerator of the fraction whose bits the register emits: y - m*2^r. */
static int64_t numerator(cj_register r)
{
    int64_t y = 0;
    int cells = state_of(r).top + 1;
    for (int i = 0; i < cells; i++)
        for (int j = 0; j <= i; j++)
            if (r.cells >> (i - j) & 1)
                y += (j == 0 ? -1 : (int64_t)((r.q + 1) >> j & 1)) * ((int64_t)1 << i);
    return y - ((int64_t)r.memory << cells);
}

cj_walked plain_walk(cj_register r, uint32_t allowance)
{
    state at = state_of(r);
    uint32_t lead = 0, period = 0;
    for (int64_t p = numerator(r); p < -(int64_t)r.q || p > 0; lead++)
        p = (p - (int64_t)step(&at) * r.q) / 2;
    state saved = at;
    do {
        step(&at);
        period++;
    } while (!same(&saved, &at));
    if (lead + period > allowance)
        return (cj_walked){CJ_ALLOWANCE_TOO_SMALL, 0, 0, 0};
    return (cj_walked){CJ_OK, lead, period, lead + period};
}

/* ---- the sheet ---- */

static bool holds(unsigned n, int64_t x)
{
    int64_t half = (int64_t)1 << (n - 1);
    return -half <= x && x < half;
}

cj_storage plain_sheet(cj_register r)
{
    unsigned cells = 31 - (unsigned)__builtin_clz(r.q + 1), most = (unsigned)__builtin_popcount(r.q + 1) - 1, n = 1;
    while (!holds(n, r.memory) || !holds(n, most))
        n++;
    return (cj_storage){CJ_OK, cells, n};
}

/* ---- the store ---- */

static uint32_t number(const uint8_t *bytes)
{
    return (uint32_t)bytes[0] << 8 | bytes[1];
}

static bool place_is_good(const uint8_t *place)
{
    uint32_t count = number(place);
    if (count > CJ_MOST_BITS)
        return false;
    const uint8_t *bits = place + 2;
    if (count % 8 != 0 && bits[count / 8] >> (count % 8) != 0)
        return false;
    for (uint32_t i = (count + 7) / 8; i < CJ_MOST_BITS / 8; i++)
        if (bits[i] != 0)
            return false;
    return true;
}

static uint32_t form(const uint8_t *block, size_t left)
{
    if (left < CJ_HEADER_BYTES)
        return CJ_RECORD_CUT;
    if (block[0] != 0x5A || block[1] != 0xC3)
        return CJ_MARK_WRONG;
    if (number(block + 2) < 1 || number(block + 2) > CJ_METERS)
        return CJ_METER_WRONG;
    uint32_t count = number(block + 4);
    if (count == 0 || count > CJ_RECORD_BITS)
        return CJ_BIT_COUNT_WRONG;
    if (left < CJ_HEADER_BYTES + (count + 7) / 8)
        return CJ_RECORD_CUT;
    if (count % 8 != 0 && block[CJ_HEADER_BYTES + count / 8] >> (count % 8) != 0)
        return CJ_SPARE_BIT_SET;
    return CJ_OK;
}

static void append(uint8_t *place, const uint8_t *bits, uint32_t count)
{
    uint32_t old = number(place), new = old + count;
    uint8_t *to = place + 2;
    for (uint32_t i = 0; i < (count + 7) / 8; i++) {
        uint32_t at = old / 8 + i, shift = old % 8;
        to[at] |= (uint8_t)(bits[i] << shift);
        if (shift != 0 && bits[i] >> (8 - shift) != 0)
            to[at + 1] |= bits[i] >> (8 - shift);
    }
    place[0] = (uint8_t)(new >> 8);
    place[1] = (uint8_t)new;
}

cj_taken plain_take(uint8_t *store, const uint8_t *block, size_t block_len)
{
    uint32_t counts[CJ_METERS];
    for (int i = 0; i < CJ_METERS; i++) {
        if (!place_is_good(store + i * CJ_PLACE_BYTES))
            return (cj_taken){CJ_STORE_INVALID, 0};
        counts[i] = number(store + i * CJ_PLACE_BYTES);
    }
    if (block_len > CJ_BLOCK_BYTES)
        return (cj_taken){CJ_BLOCK_TOO_LONG, 0};
    for (size_t at = 0; at < block_len; at += CJ_HEADER_BYTES + (number(block + at + 4) + 7) / 8) {
        uint32_t refusal = form(block + at, block_len - at);
        if (refusal != CJ_OK)
            return (cj_taken){refusal, (uint32_t)at};
    }
    for (size_t at = 0; at < block_len; at += CJ_HEADER_BYTES + (number(block + at + 4) + 7) / 8) {
        uint32_t *count = &counts[number(block + at + 2) - 1];
        *count += number(block + at + 4);
        if (*count > CJ_MOST_BITS)
            return (cj_taken){CJ_PLACE_FULL, (uint32_t)at};
    }
    for (size_t at = 0; at < block_len; at += CJ_HEADER_BYTES + (number(block + at + 4) + 7) / 8)
        append(store + (number(block + at + 2) - 1) * CJ_PLACE_BYTES, block + at + CJ_HEADER_BYTES, number(block + at + 4));
    return (cj_taken){CJ_OK, 0};
}
