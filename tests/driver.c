/* The tests' way into the library: cases from standard input go to its calls, and all that a call answers becomes a line.

     driver read_charts    a file, read: number, place, counts, edition
     driver read_texts     a text, read: the same, of an accepted one its chart's file in hex, and the word differs if the chart is not as it must be
     driver write_back     a file, read and written back: the reading's number if refused, else the writing's, the length, whether it is the same
     driver list_records   a single file: each record, the end or the refusal, and the last answer asked for again
     driver run_cycles     a file, a start, then cycles and turns of the key: for each call its whole answer; each cycle by the chart's index too,
                           and in front of its line what differs then
     driver lent_cycles    the same by tw_advance: number, taken, active, activity, clock, hold mark, reasons
     driver stored_runs    a file, a start, then cycles, turns of the key and shifts, in one line: for each its number, of a shift how many cycles were
                           accepted, and then the active steps, the stored actions and the step counters; cycles by the index too, as above
     driver text_runs      a text, a start, then cycles and turns of the key: for each call its whole answer, and in front of it the word differs, if
                           the same calls by the file that is written of the text's chart are answered otherwise
     driver held_calls     any chart, any run and a call: its whole answer and all that was lent; tests/held_calls.py has the form

   A file stands behind its length in two bytes, but for list_records, whose input is the file; a text, which has 1 MiB at most, behind its length in
   four. A start is its clock in four bytes and the number of calls that follow in two; each of them has a byte in front, 0 for a cycle, its clock and
   its inputs in four each, 1 for a hold and 2 for a release, which have nothing more, and in stored_runs 3 for a shift, how many cycles in two, their
   clocks and then their inputs in four each. There are as many cases as the input has; it may end within one, which then is left out. Numbers are
   little-endian, as on the machines that this runs on. */
#include <stdbool.h>
#include <stddef.h>
#include <stdint.h>
#include <stdio.h>
#include <stdlib.h>
#include <string.h>
#include <tolwaziho.h>

enum { LENT = 256, LIST = TW_SHIFT + 1 };

static uint8_t file[65536], written[65536], text[1 << 20];
static struct tw_chart chart;
static struct tw_run run;
static struct tw_index chart_index;
static int32_t outputs[LENT];
static uint8_t reasons[TW_TRANSITIONS];
static uint32_t clock_list[LIST], input_list[LIST];
static uint64_t activity_list[LIST];

/* Input */

/* Whether there are so many bytes more. */
static bool take(void *to, size_t size)
{
	return fread(to, 1, size, stdin) == size;
}

static bool take_file(uint16_t *size)
{
	return take(size, sizeof *size) && take(file, *size);
}

/* It begins where the one before did, and what is left of that stands behind it. */
static bool take_text(uint32_t *size)
{
	return take(size, sizeof *size) && *size <= sizeof text && take(text, *size);
}

/* Lines: words with a space between them, gathered in a buffer that is written as it fills */

static char out[1 << 20];
static size_t used;
static bool begun;

static void write_out(void)
{
	if (fwrite(out, 1, used, stdout) != used || fflush(stdout))
		exit(1);
	used = 0;
}

static void put(char c)
{
	if (used == sizeof out)
		write_out();
	out[used++] = c;
}

static void put_number(uint64_t n)
{
	char digits[20];
	size_t k = sizeof digits;
	do
		digits[--k] = (char)('0' + n % 10);
	while (n /= 10);
	while (k < sizeof digits)
		put(digits[k++]);
}

static void part(void)
{
	if (begun)
		put(' ');
	begun = true;
}

static void number(uint64_t n)
{
	part();
	put_number(n);
}

static void signed_number(int64_t n)
{
	part();
	if (n < 0)
		put('-');
	put_number((uint64_t)(n < 0 ? -n : n));
}

static void word(const char *s)
{
	part();
	while (*s)
		put(*s++);
}

static void hex(const uint8_t *bytes, size_t many)
{
	part();
	for (size_t k = 0; k < many; k++) {
		put("0123456789abcdef"[bytes[k] >> 4]);
		put("0123456789abcdef"[bytes[k] & 15]);
	}
}

static void end_line(void)
{
	put('\n');
	begun = false;
}

/* Charts. A mode's function takes one case; false where there is none. */

static void reading_words(enum tw_code code, size_t place)
{
	number(code);
	number(place);
	number(chart.steps);
	number(chart.actions);
	number(chart.transitions);
	number(chart.blocks);
	number(chart.cases);
	number(chart.edition);
}

static bool read_charts(void)
{
	uint16_t size;
	size_t place;
	if (!take_file(&size))
		return false;
	enum tw_code code = tw_read(file, size, &chart, &place);
	reading_words(code, place);
	end_line();
	return true;
}

/* As many bytes are lent as the file has. */
static bool write_back(void)
{
	uint16_t size;
	size_t place, length;
	if (!take_file(&size))
		return false;
	enum tw_code code = tw_read(file, size, &chart, &place);
	if (code) {
		number(code);
	} else {
		memset(written, 165, size);
		number(tw_write(&chart, written, size, &length));
		number(length);
		word(memcmp(written, file, size) ? "differs" : "same");
	}
	end_line();
	return true;
}

/* Charts as text (document 02, request iv) */

/* A chart up to its last field; what is behind it in the struct belongs to none. */
enum { CHART_SIZE = offsetof(struct tw_chart, edition) + 1 };

/* The text's chart, over what the struct had before. */
static enum tw_code read_text(uint32_t size, size_t *place)
{
	memset(&chart, 165, sizeof chart);
	*place = SIZE_MAX;
	return tw_read_text(text, size, &chart, place);
}

/* The chart in its form as a file, and that read again: whether both are done, and it is the chart. */
static bool goes_through_file(struct tw_chart *again, size_t *length)
{
	size_t place = SIZE_MAX;
	memset(written, 165, TW_FILE);
	memset(again, 165, sizeof *again);
	enum tw_code code = tw_write(&chart, written, TW_FILE, length);
	return !tw_read(written, *length, again, &place) && !code && !place && !memcmp(again, &chart, CHART_SIZE);
}

static bool read_texts(void)
{
	static const struct tw_chart no_chart;
	static struct tw_chart again;
	uint32_t size;
	size_t place, length;
	if (!take_text(&size))
		return false;
	enum tw_code code = read_text(size, &place);
	bool as_it_must_be = code ? !memcmp(&chart, &no_chart, CHART_SIZE) : goes_through_file(&again, &length) && !tw_test(&chart);
	reading_words(code, place);
	if (!code)
		hex(written, length);
	if (!as_it_must_be)
		word("differs");
	end_line();
	return true;
}

/* Whether it was a record, after which there may be more. */
static bool list_record(size_t size, struct tw_reader *reader)
{
	struct tw_record record;
	enum tw_code code = tw_next_record(file, size, reader, &record);
	if (code) {
		word("refused");
		number(code);
		number(record.place);
	} else if (record.kind) {
		number(record.kind);
		number(record.place);
		number(record.length);
	} else {
		word("end");
	}
	end_line();
	return !code && record.kind;
}

static bool list_records(void)
{
	struct tw_reader reader = { 0, 0 };
	size_t size = fread(file, 1, sizeof file, stdin);
	while (list_record(size, &reader))
		;
	list_record(size, &reader);
	return false;
}

/* Runs */

static void numbers(const uint32_t *n, size_t many)
{
	for (size_t k = 0; k < many; k++)
		number(n[k]);
}

/* k:n for those that are not 0. */
static void some_numbers(const uint32_t *n, size_t many)
{
	for (size_t k = 0; k < many; k++) {
		if (n[k]) {
			number(k);
			put(':');
			put_number(n[k]);
		}
	}
}

static void lent_outputs(size_t lent)
{
	for (size_t k = 0; k < lent; k++)
		signed_number(outputs[k]);
}

static void run_words(void)
{
	number(run.clock);
	number(run.active);
	number(run.activity);
	number(run.stored);
	number(run.latched);
	number(run.good);
	number(run.bad);
	number(run.hold);
}

/* Those that are not 0, by their transition. */
static void some_reasons(void)
{
	word("w");
	for (size_t t = 0; t < TW_TRANSITIONS; t++) {
		if (reasons[t]) {
			number(t);
			put(':');
			put_number(reasons[t]);
		}
	}
}

static void run_cycles_line(enum tw_code code, uint64_t taken)
{
	number(code);
	number(taken);
	run_words();
	word("c");
	some_numbers(run.counters, TW_STEPS);
	word("t");
	some_numbers(run.timers, TW_ACTIONS);
	word("o");
	lent_outputs(TW_OUTPUTS);
	some_reasons();
	end_line();
}

static void lent_cycles_line(enum tw_code code, uint64_t taken)
{
	number(code);
	number(taken);
	number(run.active);
	number(run.activity);
	number(run.clock);
	number(run.hold);
	some_reasons();
	end_line();
}

typedef enum tw_code cycle_call(const struct tw_chart *, struct tw_run *, uint32_t, uint32_t, int32_t *, size_t, uint64_t *, uint8_t *);
typedef void line_of_call(enum tw_code code, uint64_t taken);

/* tw_cycle_by with the index at hand. */
static enum tw_code cycle_by(const struct tw_chart *c, struct tw_run *r, uint32_t clock, uint32_t inputs, int32_t *o, size_t lent, uint64_t *taken,
	uint8_t *why)
{
	return tw_cycle_by(c, &chart_index, r, clock, inputs, o, lent, taken, why);
}

static void say_if(bool differs, const char *what)
{
	if (differs) {
		word("index");
		word(what);
	}
}

/* tw_cycle, after tw_cycle_by on copies of all that it writes, since a cycle by the index "gives the same answer throughout" (document 02, request ix).
   The runs are copied and compared as they lie: no call writes between their fields. */
static enum tw_code cycle_both_ways(const struct tw_chart *c, struct tw_run *r, uint32_t clock, uint32_t inputs, int32_t *o, size_t lent,
	uint64_t *taken, uint8_t *why)
{
	static struct tw_run run_by;
	static int32_t outputs_by[LENT];
	static uint8_t reasons_by[TW_TRANSITIONS];
	uint64_t taken_by = UINT64_MAX;
	memcpy(&run_by, r, sizeof run_by);
	memcpy(outputs_by, o, lent * sizeof *o);
	memcpy(reasons_by, why, sizeof reasons_by);
	enum tw_code code_by = cycle_by(c, &run_by, clock, inputs, outputs_by, lent, &taken_by, reasons_by);
	enum tw_code code = tw_cycle(c, r, clock, inputs, o, lent, taken, why);
	say_if(code_by != code, "number");
	say_if(taken_by != *taken, "taken");
	say_if(memcmp(reasons_by, why, sizeof reasons_by) != 0, "reasons");
	say_if(memcmp(&run_by, r, sizeof run_by) != 0, "run");
	say_if(memcmp(outputs_by, o, lent * sizeof *o) != 0, "outputs");
	return code;
}

static bool one_cycle(cycle_call *cycle, line_of_call *line)
{
	uint32_t clock, inputs;
	uint64_t taken;
	if (!take(&clock, sizeof clock) || !take(&inputs, sizeof inputs))
		return false;
	memset(reasons, 255, sizeof reasons);
	enum tw_code code = cycle(&chart, &run, clock, inputs, outputs, TW_OUTPUTS, &taken, reasons);
	line(code, taken);
	return true;
}

/* A start or a turn of the key, which takes no transition and makes no reasons. */
static void other_call(enum tw_code code, line_of_call *line)
{
	memset(reasons, 0, sizeof reasons);
	line(code, 0);
}

enum { CYCLE_CALL, HOLD_CALL, RELEASE_CALL, SHIFT_CALL };

static bool one_call(uint8_t kind, cycle_call *cycle, line_of_call *line)
{
	switch (kind) {
	case CYCLE_CALL: return one_cycle(cycle, line);
	case HOLD_CALL: other_call(tw_hold(&chart, &run), line); return true;
	case RELEASE_CALL: other_call(tw_release(&chart, &run), line); return true;
	}
	return false;
}

/* The start, and how many calls follow. */
static bool begin_run(uint16_t *calls, line_of_call *line)
{
	uint16_t size;
	uint32_t clock;
	size_t place;
	if (!take_file(&size) || !take(&clock, sizeof clock) || !take(calls, sizeof *calls))
		return false;
	tw_read(file, size, &chart, &place);
	tw_index(&chart, &chart_index);
	memset(outputs, 0, sizeof outputs);
	other_call(tw_start(&chart, &run, clock, outputs, TW_OUTPUTS), line);
	return true;
}

static bool one_run(cycle_call *cycle, line_of_call *line)
{
	uint16_t calls;
	uint8_t kind;
	if (!begin_run(&calls, line))
		return false;
	for (; calls > 0; calls--)
		if (!take(&kind, sizeof kind) || !one_call(kind, cycle, line))
			return false;
	return true;
}

static bool run_cycles(void)
{
	return one_run(cycle_both_ways, run_cycles_line);
}

static bool lent_cycles(void)
{
	return one_run(tw_advance, lent_cycles_line);
}

/* Stored from set to reset (document 02, request xi): what a caller sees of it. */

static void stored_words(void)
{
	number(run.active);
	number(run.stored);
	word("c");
	some_numbers(run.counters, TW_STEPS);
}

static void stored_part(enum tw_code code, uint64_t taken)
{
	(void)taken;
	number(code);
	stored_words();
}

static bool stored_shift(void)
{
	uint16_t many;
	size_t accepted;
	if (!take(&many, sizeof many) || many > LIST || !take(clock_list, many * sizeof *clock_list) || !take(input_list, many * sizeof *input_list))
		return false;
	number(tw_shift(&chart, &run, clock_list, many, input_list, many, activity_list, many, outputs, TW_OUTPUTS, &accepted));
	number(accepted);
	stored_words();
	return true;
}

static bool stored_runs(void)
{
	uint16_t calls;
	uint8_t kind;
	if (!begin_run(&calls, stored_part))
		return false;
	for (; calls > 0; calls--)
		if (!take(&kind, sizeof kind) || !(kind == SHIFT_CALL ? stored_shift() : one_call(kind, cycle_both_ways, stored_part)))
			return false;
	end_line();
	return true;
}

/* A chart by its text and by its file (document 02, requests iv and i) */

/* All that is on one of two sides, beside the chart: what a call is lent, and what it answers. The runs are compared as they lie, as above. */
struct side {
	struct tw_run run;
	int32_t outputs[TW_OUTPUTS];
	uint8_t reasons[TW_TRANSITIONS];
	uint64_t taken;
	uint64_t code;
};

enum { START_CALL = SHIFT_CALL + 1 };

/* Of a start and a turn of the key nothing is taken, and there are no reasons. */
static void call_on(const struct tw_chart *c, struct side *s, uint8_t kind, uint32_t clock, uint32_t inputs)
{
	memset(s->reasons, kind == CYCLE_CALL ? 255 : 0, sizeof s->reasons);
	s->taken = 0;
	switch (kind) {
	case CYCLE_CALL: s->code = tw_cycle(c, &s->run, clock, inputs, s->outputs, TW_OUTPUTS, &s->taken, s->reasons); break;
	case HOLD_CALL: s->code = tw_hold(c, &s->run); break;
	case RELEASE_CALL: s->code = tw_release(c, &s->run); break;
	default: s->code = tw_start(c, &s->run, clock, s->outputs, TW_OUTPUTS);
	}
}

static void text_call(const struct tw_chart *by_file, struct side sides[2], uint8_t kind, uint32_t clock, uint32_t inputs)
{
	call_on(&chart, &sides[0], kind, clock, inputs);
	call_on(by_file, &sides[1], kind, clock, inputs);
	if (memcmp(&sides[0], &sides[1], sizeof *sides))
		word("differs");
	run = sides[0].run;
	memcpy(outputs, sides[0].outputs, sizeof sides[0].outputs);
	memcpy(reasons, sides[0].reasons, sizeof reasons);
	run_cycles_line((enum tw_code)sides[0].code, sides[0].taken);
}

static bool text_runs(void)
{
	static struct tw_chart by_file;
	static struct side sides[2];
	uint32_t size, clock, inputs = 0;
	uint16_t calls;
	size_t place, length;
	uint8_t kind;
	if (!take_text(&size) || !take(&clock, sizeof clock) || !take(&calls, sizeof calls))
		return false;
	read_text(size, &place);
	goes_through_file(&by_file, &length);
	memset(sides, 165, sizeof sides);
	for (size_t k = 0; k < 2; k++)
		memset(sides[k].outputs, 0, sizeof sides[k].outputs);
	text_call(&by_file, sides, START_CALL, clock, 0);
	for (; calls > 0; calls--) {
		if (!take(&kind, sizeof kind) || kind > RELEASE_CALL)
			return false;
		if (kind == CYCLE_CALL && (!take(&clock, sizeof clock) || !take(&inputs, sizeof inputs)))
			return false;
		text_call(&by_file, sides, kind, clock, inputs);
	}
	return true;
}

/* Held charts and runs. All that is lent to a call has values of its own before, so that what it leaves untouched is seen. */

_Static_assert(sizeof chart == 4560 && offsetof(struct tw_chart, edition) == 4552, "a chart's image is the struct as it lies");

static bool take_run(void)
{
	return take(&run.clock, sizeof run.clock) && take(&run.active, sizeof run.active) && take(&run.activity, sizeof run.activity)
		&& take(&run.stored, sizeof run.stored) && take(&run.latched, sizeof run.latched)
		&& take(run.counters, sizeof run.counters) && take(run.timers, sizeof run.timers)
		&& take(&run.good, sizeof run.good) && take(&run.bad, sizeof run.bad) && take(&run.hold, sizeof run.hold);
}

/* Of a start or a cycle the transitions taken, of a shift how many cycles were accepted; of a turn of the key 0, and no outputs are lent to it. */
static void held_run(enum tw_code code, uint64_t taken_or_accepted, size_t lent)
{
	number(code);
	number(taken_or_accepted);
	run_words();
	numbers(run.counters, TW_STEPS);
	numbers(run.timers, TW_ACTIONS);
	lent_outputs(lent);
}

static void held_cycle(cycle_call *cycle, uint32_t clock, uint32_t inputs, size_t lent)
{
	uint64_t taken;
	memset(reasons, 255, sizeof reasons);
	enum tw_code code = cycle(&chart, &run, clock, inputs, outputs, lent, &taken, reasons);
	held_run(code, taken, lent);
	for (size_t t = 0; t < TW_TRANSITIONS; t++)
		number(reasons[t]);
}

static void held_tally(void)
{
	struct tw_tallied tallied;
	number(tw_tally(&chart, &run, &tallied));
	number(tallied.passed);
	number(tallied.failed);
	number(tallied.notrun);
}

static void held_weighing(const uint16_t *weights, size_t many)
{
	struct tw_weighed weighed;
	number(tw_weigh(&chart, weights, many, &weighed));
	number(weighed.transition);
	number(weighed.total);
}

/* The second list stands behind the first. A list may have as many weights as two bytes can say, and be wrong by that. */
static bool held_adding(const uint16_t *first, size_t nfirst, size_t nsecond, size_t nsum)
{
	static uint16_t second[1 << 16], sum[1 << 16];
	size_t step;
	if (!take(second, nsecond * sizeof *second))
		return false;
	for (size_t k = 0; k < nsum; k++)
		sum[k] = (uint16_t)(50000 + k % 256);
	number(tw_add(&chart, first, nfirst, second, nsecond, sum, nsum, &step));
	number(step);
	for (size_t k = 0; k < nsum; k++)
		number(sum[k]);
	end_line();
	return true;
}

static void held_writing(size_t lent)
{
	size_t length;
	for (size_t k = 0; k < lent; k++)
		written[k] = (uint8_t)(k % 251);
	number(tw_write(&chart, written, lent, &length));
	number(length);
	for (size_t k = 0; k < lent; k++)
		number(written[k]);
}

static void held_index(void)
{
	memset(&chart_index, 255, sizeof chart_index);
	number(tw_index(&chart, &chart_index));
	for (size_t k = 0; k < TW_STEPS; k++)
		number(chart_index.leaving[k]);
}

static bool held_shift(bool by_index, size_t nclocks, size_t ninputs, size_t nactivities, size_t lent)
{
	size_t accepted;
	if (!take(clock_list, nclocks * sizeof *clock_list) || !take(input_list, ninputs * sizeof *input_list))
		return false;
	for (size_t k = 0; k < nactivities; k++)
		activity_list[k] = (UINT64_C(1) << 32) + k;
	enum tw_code code = by_index
		? tw_shift_by(&chart, &chart_index, &run, clock_list, nclocks, input_list, ninputs, activity_list, nactivities, outputs, lent, &accepted)
		: tw_shift(&chart, &run, clock_list, nclocks, input_list, ninputs, activity_list, nactivities, outputs, lent, &accepted);
	held_run(code, accepted, lent);
	for (size_t k = 0; k < nactivities; k++)
		number(activity_list[k]);
	end_line();
	return true;
}

/* A list's length, no more than there is room for. */
static size_t list_length(uint32_t n)
{
	return n < LIST ? n : LIST;
}

static bool held_calls(void)
{
	enum { START, CYCLE, TALLY, WEIGHING, WRITING, SHIFT, HOLD, RELEASE, INDEX, CYCLE_BY, SHIFT_BY, ADDING };
	uint8_t kind, lent, nweights;
	uint32_t clock, inputs;
	uint16_t weights[256];
	if (!take(&chart, sizeof chart) || !take_run() || !take(&kind, sizeof kind) || !take(&clock, sizeof clock)
		|| !take(&inputs, sizeof inputs) || !take(&lent, sizeof lent) || !take(&nweights, sizeof nweights)
		|| !take(weights, nweights * sizeof *weights))
		return false;
	if ((kind == CYCLE_BY || kind == SHIFT_BY) && !take(chart_index.leaving, sizeof chart_index.leaving))
		return false;
	for (int32_t k = 0; k < LENT; k++)
		outputs[k] = 1000 + k;
	if (kind == SHIFT || kind == SHIFT_BY)
		return held_shift(kind == SHIFT_BY, list_length(clock & 0xffff), list_length(clock >> 16), list_length(inputs & 0xffff), lent);
	if (kind == ADDING)
		return held_adding(weights, nweights, clock & 0xffff, inputs & 0xffff);
	switch (kind) {
	case START: held_run(tw_start(&chart, &run, clock, outputs, lent), 0, lent); break;
	case CYCLE: held_cycle(tw_cycle, clock, inputs, lent); break;
	case CYCLE_BY: held_cycle(cycle_by, clock, inputs, lent); break;
	case TALLY: held_tally(); break;
	case WRITING: held_writing(clock & 0xffff); break;
	case HOLD: held_run(tw_hold(&chart, &run), 0, 0); break;
	case RELEASE: held_run(tw_release(&chart, &run), 0, 0); break;
	case INDEX: held_index(); break;
	default: held_weighing(weights, nweights);
	}
	end_line();
	return true;
}

int main(int argc, char **argv)
{
	static const struct {
		const char *name;
		bool (*one_case)(void);
	} modes[] = {
		{ "read_charts", read_charts }, { "write_back", write_back }, { "list_records", list_records }, { "run_cycles", run_cycles },
		{ "lent_cycles", lent_cycles }, { "stored_runs", stored_runs }, { "held_calls", held_calls }, { "read_texts", read_texts },
		{ "text_runs", text_runs },
	};
	static char in[1 << 20];
	setvbuf(stdin, in, _IOFBF, sizeof in);
	for (size_t i = 0; argc == 2 && i < sizeof modes / sizeof *modes; i++) {
		if (!strcmp(argv[1], modes[i].name)) {
			while (modes[i].one_case())
				;
			write_out();
			return 0;
		}
	}
	fprintf(stderr, "usage: see the head of driver.c\n");
	return 2;
}
