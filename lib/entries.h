/* The proved entries of the crates that lib/build names, as C sees them: a slice is a pointer and a length, a lent array, number, chart or run a pointer. They answer the
   number of refusal, as include/tolwaziho.h says of the call of the same name. Nobody but tolwaziho.c calls them. */
#ifndef TOLWAZIHO_ENTRIES_H
#define TOLWAZIHO_ENTRIES_H

#include <stdbool.h>
#include <stddef.h>
#include <stdint.h>

#include "tolwaziho.h"

/* An index, lent to be read; of length 0 there is none. */
#define INDEX const uint64_t *index, size_t nindex

uint8_t tolwaziho_next_record(const uint8_t *bytes, size_t size, size_t *at, uint16_t *before, uint16_t *kind, size_t *place, size_t *length);
uint8_t tolwaziho_read(const uint8_t *bytes, size_t size, struct tw_chart *chart, size_t *place);
uint8_t tolwaziho_read_text(const uint8_t *text, size_t size, struct tw_chart *chart, size_t *place);
uint8_t tolwaziho_test(const struct tw_chart *chart);
uint8_t tolwaziho_write(const struct tw_chart *chart, uint8_t *bytes, size_t size, size_t *length);
uint8_t tolwaziho_start(const struct tw_chart *chart, struct tw_run *run, uint32_t clock, int32_t *outputs, size_t lent);
uint8_t tolwaziho_cycle(const struct tw_chart *chart, INDEX, struct tw_run *run, uint32_t clock, uint32_t inputs, int32_t *outputs, size_t lent,
	uint64_t *taken, uint8_t reasons[64]);
uint8_t tolwaziho_turn(const struct tw_chart *chart, struct tw_run *run, bool held);
uint8_t tolwaziho_shift(const struct tw_chart *chart, INDEX, struct tw_run *run, const uint32_t *clocks, size_t nclocks, const uint32_t *inputs,
	size_t ninputs, uint64_t *activities, size_t nactivities, int32_t *outputs, size_t lent, size_t *accepted);
uint8_t tolwaziho_index(uint8_t held, size_t transitions, const uint64_t sources[64], uint64_t leaving[64]);
uint8_t tolwaziho_tally(const struct tw_chart *chart, const struct tw_run *run, size_t *passed, size_t *failed, size_t *notrun);
uint8_t tolwaziho_weigh(const struct tw_chart *chart, const uint16_t *weights, size_t nweights, size_t *transition, uint32_t *total);
uint8_t tolwaziho_add(uint8_t held, size_t steps, const uint16_t *first, size_t nfirst, const uint16_t *second, size_t nsecond, uint16_t *sum,
	size_t nsum, size_t *step);
uint8_t tolwaziho_advance(const struct tw_chart *chart, struct tw_run *run, uint32_t clock, uint32_t inputs, int32_t *outputs, size_t lent,
	uint64_t *taken, uint8_t reasons[64]);

#endif
