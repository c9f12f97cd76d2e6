/* The calls of include/tolwaziho.h: each hands what it is lent to the proved entry of its name. Nothing is copied, tested or decided here. */
#include "tolwaziho.h"

#include "entries.h"

/* The entries take the structs as they lie: each field where the layout that C and the toolchain share puts it on an x86-64 machine. */
#define LIES(struct_, field, at) _Static_assert(offsetof(struct struct_, field) == (at), #field)
LIES(tw_chart, steps, 0);
LIES(tw_chart, actions, 8);
LIES(tw_chart, transitions, 16);
LIES(tw_chart, blocks, 24);
LIES(tw_chart, cases, 32);
LIES(tw_chart, initial, 40);
LIES(tw_chart, output, 104);
LIES(tw_chart, value, 136);
LIES(tw_chart, sources, 264);
LIES(tw_chart, targets, 776);
LIES(tw_chart, on, 1288);
LIES(tw_chart, off, 1800);
LIES(tw_chart, wait, 2312);
LIES(tw_chart, blockstep, 2568);
LIES(tw_chart, blockaction, 2824);
LIES(tw_chart, qualifier, 3080);
LIES(tw_chart, duration, 3336);
LIES(tw_chart, casestep, 4360);
LIES(tw_chart, signal, 4424);
LIES(tw_chart, expected, 4488);
LIES(tw_chart, edition, 4552);
LIES(tw_run, clock, 0);
LIES(tw_run, active, 8);
LIES(tw_run, activity, 16);
LIES(tw_run, stored, 24);
LIES(tw_run, latched, 32);
LIES(tw_run, counters, 40);
LIES(tw_run, timers, 296);
LIES(tw_run, good, 424);
LIES(tw_run, bad, 432);
LIES(tw_run, hold, 440);
_Static_assert(sizeof(struct tw_chart) == 4560 && sizeof(struct tw_run) == 448, "as large as the toolchain's, which `engine` tests");

/* An index as INDEX has it, and none: of its words, which are as valid as any, no one is read. */
#define INDEX_OF(x) (x)->leaving, TW_STEPS
#define NO_INDEX(c) (c)->sources, 0

enum tw_code tw_read(const uint8_t *bytes, size_t size, struct tw_chart *chart, size_t *place)
{
	return tolwaziho_read(bytes, size, chart, place);
}

enum tw_code tw_read_text(const uint8_t *text, size_t size, struct tw_chart *chart, size_t *place)
{
	return tolwaziho_read_text(text, size, chart, place);
}

enum tw_code tw_test(const struct tw_chart *chart)
{
	return tolwaziho_test(chart);
}

enum tw_code tw_write(const struct tw_chart *chart, uint8_t *bytes, size_t lent, size_t *length)
{
	return tolwaziho_write(chart, bytes, lent, length);
}

enum tw_code tw_start(const struct tw_chart *chart, struct tw_run *run, uint32_t clock, int32_t *outputs, size_t lent)
{
	return tolwaziho_start(chart, run, clock, outputs, lent);
}

enum tw_code tw_cycle(const struct tw_chart *chart, struct tw_run *run, uint32_t clock, uint32_t inputs, int32_t *outputs, size_t lent,
	uint64_t *taken, uint8_t reasons[TW_TRANSITIONS])
{
	return tolwaziho_cycle(chart, NO_INDEX(chart), run, clock, inputs, outputs, lent, taken, reasons);
}

enum tw_code tw_hold(const struct tw_chart *chart, struct tw_run *run)
{
	return tolwaziho_turn(chart, run, true);
}

enum tw_code tw_release(const struct tw_chart *chart, struct tw_run *run)
{
	return tolwaziho_turn(chart, run, false);
}

enum tw_code tw_shift(const struct tw_chart *chart, struct tw_run *run, const uint32_t *clocks, size_t nclocks, const uint32_t *inputs,
	size_t ninputs, uint64_t *activities, size_t nactivities, int32_t *outputs, size_t lent, size_t *accepted)
{
	return tolwaziho_shift(chart, NO_INDEX(chart), run, clocks, nclocks, inputs, ninputs, activities, nactivities, outputs, lent, accepted);
}

/* The chart's own test, whose number the index goes by. */
enum tw_code tw_index(const struct tw_chart *chart, struct tw_index *index)
{
	return tolwaziho_index(tolwaziho_test(chart), chart->transitions, chart->sources, index->leaving);
}

enum tw_code tw_cycle_by(const struct tw_chart *chart, const struct tw_index *index, struct tw_run *run, uint32_t clock, uint32_t inputs,
	int32_t *outputs, size_t lent, uint64_t *taken, uint8_t reasons[TW_TRANSITIONS])
{
	return tolwaziho_cycle(chart, INDEX_OF(index), run, clock, inputs, outputs, lent, taken, reasons);
}

enum tw_code tw_shift_by(const struct tw_chart *chart, const struct tw_index *index, struct tw_run *run, const uint32_t *clocks, size_t nclocks,
	const uint32_t *inputs, size_t ninputs, uint64_t *activities, size_t nactivities, int32_t *outputs, size_t lent, size_t *accepted)
{
	return tolwaziho_shift(chart, INDEX_OF(index), run, clocks, nclocks, inputs, ninputs, activities, nactivities, outputs, lent, accepted);
}

enum tw_code tw_tally(const struct tw_chart *chart, const struct tw_run *run, struct tw_tallied *tallied)
{
	return tolwaziho_tally(chart, run, &tallied->passed, &tallied->failed, &tallied->notrun);
}

enum tw_code tw_weigh(const struct tw_chart *chart, const uint16_t *weights, size_t nweights, struct tw_weighed *weighed)
{
	return tolwaziho_weigh(chart, weights, nweights, &weighed->transition, &weighed->total);
}

/* As tw_index, by the chart's own test. */
enum tw_code tw_add(const struct tw_chart *chart, const uint16_t *first, size_t nfirst, const uint16_t *second, size_t nsecond, uint16_t *sum,
	size_t nsum, size_t *step)
{
	return tolwaziho_add(tolwaziho_test(chart), chart->steps, first, nfirst, second, nsecond, sum, nsum, step);
}

enum tw_code tw_next_record(const uint8_t *bytes, size_t size, struct tw_reader *reader, struct tw_record *record)
{
	return tolwaziho_next_record(bytes, size, &reader->at, &reader->before, &record->kind, &record->place, &record->length);
}

enum tw_code tw_advance(const struct tw_chart *chart, struct tw_run *run, uint32_t clock, uint32_t inputs, int32_t *outputs, size_t lent,
	uint64_t *taken, uint8_t reasons[TW_TRANSITIONS])
{
	return tolwaziho_advance(chart, run, clock, inputs, outputs, lent, taken, reasons);
}

const char *tw_name(enum tw_code code)
{
	switch (code) {
	case TW_ACCEPTED: return "accepted";
	case TW_CUT: return "cut";
	case TW_BAD_KIND: return "bad kind";
	case TW_BAD_LENGTH: return "bad length";
	case TW_TOO_MANY: return "too many";
	case TW_BAD_FIELD: return "bad field";
	case TW_BAD_STEPS: return "bad steps";
	case TW_BAD_SIGNALS: return "bad signals";
	case TW_TIMED_TWICE: return "timed twice";
	case TW_NO_INITIAL: return "no initial";
	case TW_SURPLUS: return "surplus";
	case TW_TOO_LATE: return "too late";
	case TW_OTHER_RUN: return "other run";
	case TW_WRONG_WEIGHTS: return "wrong weights";
	case TW_UNBALANCED: return "unbalanced";
	case TW_FEW_OUTPUTS: return "few outputs";
	case TW_BAD_TRACE: return "bad trace";
	case TW_TOO_FEW_BYTES: return "too few bytes";
	case TW_UNEVEN_LISTS: return "uneven lists";
	case TW_NO_TEXT: return "no text";
	case TW_OTHER_INDEX: return "other index";
	case TW_SUM_TOO_LARGE: return "sum too large";
	case TW_OUT_OF_ORDER: return "out of order";
	}
	return "unknown";
}

const char *tw_why(enum tw_reason reason)
{
	switch (reason) {
	case TW_TAKEN: return "taken";
	case TW_NOT_ACTIVE: return "a source not active";
	case TW_USED: return "a source used by an earlier one";
	case TW_SIGNAL: return "a signal";
	case TW_WAIT: return "a wait";
	case TW_OCCUPIED: return "a target occupied";
	case TW_CLAIMED: return "a target claimed by an earlier one";
	case TW_HOLD: return "hold";
	}
	return "unknown";
}
