/* A plain C engine of documents 01 and 02, to measure the proved one by: the same charts, runs, calls and refusals, on the library's own structs. */
#ifndef BENCH_ENGINE_H
#define BENCH_ENGINE_H

#include "tolwaziho.h"

/* Each is the call of the same name in tolwaziho.h. */
enum tw_code c_read(const uint8_t *bytes, size_t size, struct tw_chart *chart, size_t *place);
enum tw_code c_read_text(const uint8_t *text, size_t size, struct tw_chart *chart, size_t *place);
enum tw_code c_test(const struct tw_chart *chart);
enum tw_code c_write(const struct tw_chart *chart, uint8_t *bytes, size_t lent, size_t *length);
enum tw_code c_start(const struct tw_chart *chart, struct tw_run *run, uint32_t clock, int32_t *outputs, size_t lent);
enum tw_code c_cycle(const struct tw_chart *chart, struct tw_run *run, uint32_t clock, uint32_t inputs, int32_t *outputs, size_t lent,
	uint64_t *taken, uint8_t reasons[TW_TRANSITIONS]);
enum tw_code c_hold(const struct tw_chart *chart, struct tw_run *run);
enum tw_code c_release(const struct tw_chart *chart, struct tw_run *run);
enum tw_code c_shift(const struct tw_chart *chart, struct tw_run *run, const uint32_t *clocks, size_t nclocks, const uint32_t *inputs,
	size_t ninputs, uint64_t *activities, size_t nactivities, int32_t *outputs, size_t lent, size_t *accepted);
enum tw_code c_index(const struct tw_chart *chart, struct tw_index *index);
enum tw_code c_cycle_by(const struct tw_chart *chart, const struct tw_index *index, struct tw_run *run, uint32_t clock, uint32_t inputs,
	int32_t *outputs, size_t lent, uint64_t *taken, uint8_t reasons[TW_TRANSITIONS]);
enum tw_code c_shift_by(const struct tw_chart *chart, const struct tw_index *index, struct tw_run *run, const uint32_t *clocks, size_t nclocks,
	const uint32_t *inputs, size_t ninputs, uint64_t *activities, size_t nactivities, int32_t *outputs, size_t lent, size_t *accepted);
enum tw_code c_add(const struct tw_chart *chart, const uint16_t *first, size_t nfirst, const uint16_t *second, size_t nsecond, uint16_t *sum,
	size_t nsum, size_t *step);

#endif
