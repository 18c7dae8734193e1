/*
 * A concentrator's day in one page: a block of training bits comes in, meter 3's register is learned from them, and a payload
 * of meter 3 is unwhitened. A torn block comes in too, and is refused whole.
 *
 *     tools/build capi
 *     cc -std=c99 -Iinclude examples/unwhiten.c target/staticlib/libcapi.a -o target/unwhiten && target/unwhiten
 */
#include <stdio.h>
#include <stdlib.h>

#include "cocklejoist.h"

static uint8_t store[CJ_STORE_BYTES]; /* a fresh store is all zero */

/* Two records: 13 bits of meter 3, 3 bits of meter 7. */
static const uint8_t block[] = {0x5A, 0xC3, 0x00, 0x03, 0x00, 0x0D, 0x53, 0x04, 0x5A, 0xC3, 0x00, 0x07, 0x00, 0x03, 0x05};

/* What meter 3 sent, whitened from the start of its register. */
static uint8_t payload[] = {0x3e, 0x81, 0xc7, 0x0b, 0x42, 0x65, 0x0d, 0xd1, 0x26, 0x63, 0xd4,
                            0x87, 0x5c, 0x01, 0x72, 0x10, 0xdd, 0x26, 0x38, 0xb3, 0xdb};

/* Every answer begins with its refusal; but for a place, nothing else in it means anything unless that is CJ_OK. */
static void expect_ok(const char *what, uint32_t refusal)
{
    if (refusal != CJ_OK) {
        printf("%s: refused %u\n", what, (unsigned)refusal);
        exit(1);
    }
}

int main(void)
{
    if (cj_version() != CJ_VERSION) {
        printf("compiled with another header than that of the library\n");
        return 1;
    }

    cj_taken taken = cj_take(store, sizeof store, block, sizeof block);
    expect_ok("take", taken.refusal);
    printf("block of %u bytes: taken\n", (unsigned)sizeof block);

    /* The same block with its last byte lost: refused at the record that is cut, and the store stays as it is. */
    taken = cj_take(store, sizeof store, block, sizeof block - 1);
    printf("block of %u bytes: refused %u at %u\n", (unsigned)sizeof block - 1, (unsigned)taken.refusal, (unsigned)taken.place);

    cj_fraction pair = cj_learn_meter(store, sizeof store, 3);
    expect_ok("learn", pair.refusal);
    printf("meter 3: p %d, q %u\n", (int)pair.p, (unsigned)pair.q);

    cj_loaded loaded = cj_load(pair.p, pair.q);
    expect_ok("load", loaded.refusal);
    cj_register r = loaded.state;
    printf("register: q %u, cells %u, memory %d\n", (unsigned)r.q, (unsigned)r.cells, (int)r.memory);

    cj_walked walked = cj_walk(r, 65536);
    expect_ok("walk", walked.refusal);
    printf("lead-in %u, period %u\n", (unsigned)walked.lead, (unsigned)walked.period);

    expect_ok("whiten", cj_whiten(&r, payload, sizeof payload));
    printf("payload: \"%.*s\"\n", (int)sizeof payload, (const char *)payload);
    printf("register: q %u, cells %u, memory %d\n", (unsigned)r.q, (unsigned)r.cells, (int)r.memory);
    return 0;
}
