/* The layouts that other languages declare again, in numbers: an answer that moves by a byte in the sources and the header alike is seen here. */
#include "cocklejoist.h"

/* An array of a negative size does not compile. */
#define HOLDS(name, fact) typedef char name[(fact) ? 1 : -1]
#define AT(name, type, field, place) HOLDS(name, offsetof(type, field) == (place))

HOLDS(register_size, sizeof(cj_register) == 12);
AT(register_q, cj_register, q, 0);
AT(register_cells, cj_register, cells, 4);
AT(register_memory, cj_register, memory, 8);

HOLDS(fraction_size, sizeof(cj_fraction) == 12);
AT(fraction_refusal, cj_fraction, refusal, 0);
AT(fraction_p, cj_fraction, p, 4);
AT(fraction_q, cj_fraction, q, 8);

HOLDS(loaded_size, sizeof(cj_loaded) == 16);
AT(loaded_refusal, cj_loaded, refusal, 0);
AT(loaded_state, cj_loaded, state, 4);

HOLDS(stepped_size, sizeof(cj_stepped) == 20);
AT(stepped_refusal, cj_stepped, refusal, 0);
AT(stepped_bit, cj_stepped, bit, 4);
AT(stepped_state, cj_stepped, state, 8);

HOLDS(walked_size, sizeof(cj_walked) == 16);
AT(walked_refusal, cj_walked, refusal, 0);
AT(walked_lead, cj_walked, lead, 4);
AT(walked_period, cj_walked, period, 8);
AT(walked_sum, cj_walked, sum, 12);

HOLDS(storage_size, sizeof(cj_storage) == 12);
AT(storage_refusal, cj_storage, refusal, 0);
AT(storage_cells, cj_storage, cells, 4);
AT(storage_memory_bits, cj_storage, memory_bits, 8);

HOLDS(entry_size, sizeof(cj_entry) == 8);
AT(entry_refusal, cj_entry, refusal, 0);
AT(entry_period, cj_entry, period, 4);

HOLDS(word_size, sizeof(cj_word) == 16);
AT(word_refusal, cj_word, refusal, 0);
AT(word_word, cj_word, word, 8);

HOLDS(taken_size, sizeof(cj_taken) == 8);
AT(taken_refusal, cj_taken, refusal, 0);
AT(taken_place, cj_taken, place, 4);

HOLDS(record_size, sizeof(cj_record) == 24);
AT(record_refusal, cj_record, refusal, 0);
AT(record_place, cj_record, place, 4);
AT(record_count, cj_record, count, 8);
AT(record_antenna, cj_record, antenna, 12);
AT(record_start, cj_record, start, 16);
AT(record_length, cj_record, length, 20);

HOLDS(store_bytes, CJ_STORE_BYTES == CJ_METERS * CJ_PLACE_BYTES && CJ_PLACE_BYTES == 2 + CJ_MOST_BITS / 8);
