/* The straightforward C that the library is timed against: see plain.c. */
#ifndef PLAIN_H
#define PLAIN_H

#include "cocklejoist.h"

/* Each answers as the function of cocklejoist.h with the same name, as far as the bench uses it. */
cj_fraction plain_learn(const uint8_t *bytes, uint32_t count);
uint32_t plain_whiten(cj_register *r, uint8_t *bytes, size_t len);
cj_walked plain_walk(cj_register r, uint32_t allowance);
cj_storage plain_sheet(cj_register r);
cj_taken plain_take(uint8_t *store, const uint8_t *block, size_t block_len);

#endif
