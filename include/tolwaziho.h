/* Tolwaziho, the engine of the brake bench, for programs in C and C++: charts of steps and transitions, their runs, their tally. The rules are
   documents 01 and 02; README.md has the form of a chart file, and what to do about each refusal.

   What each call answers is proved for every value of every argument: any bytes, any chart and any run, altered ones too. It ends, it reaches
   nothing but what it is handed, and a fault is refused by its number. What the caller owes, and nobody proves:

   - a pointer is valid for as many elements as the call is told, and never null, not even for none;
   - what a call writes overlaps nothing else that it is handed;
   - while it runs, no other thread changes what it is handed, or reads what it writes.

   The library keeps nothing from one call to the next: all there is of a run lies in the caller's tw_run. */
#ifndef TOLWAZIHO_H
#define TOLWAZIHO_H

#include <stddef.h>
#include <stdint.h>

#ifdef __cplusplus
extern "C" {
#endif

enum { TW_STEPS = 64, TW_ACTIONS = 32, TW_TRANSITIONS = 64, TW_BLOCKS = 256, TW_CASES = 64, TW_OUTPUTS = 32 };

enum {
	TW_FILE = 6441,		/* bytes of the longest chart file */
	TW_SHIFT = 4096,	/* cycles of the longest shift */
	TW_LONGEST = 86400000,	/* ms of the longest wait or duration; counters and timers stop there */
	TW_LATEST = 60000	/* ms between two calls, at most */
};

/* What every call answers: accepted, or why it was refused. */
enum tw_code {
	TW_ACCEPTED = 0,
	TW_CUT = 1,		/* the file ends within a record, or without an end record */
	TW_BAD_KIND = 2,	/* an unknown kind of record, or one out of order */
	TW_BAD_LENGTH = 3,	/* a record's length is not that of its kind */
	TW_TOO_MANY = 4,	/* more of a kind than the limits above, or a second edition record */
	TW_BAD_FIELD = 5,	/* a field outside its range, or an edition that there is not */
	TW_BAD_STEPS = 6,	/* a transition without source or target, or with a step that is both */
	TW_BAD_SIGNALS = 7,	/* a signal in both on and off */
	TW_TIMED_TWICE = 8,	/* two timed blocks for one action */
	TW_NO_INITIAL = 9,	/* no initial step */
	TW_SURPLUS = 10,	/* bytes after the end record */
	TW_TOO_LATE = 11,	/* more than 60,000 ms since the last accepted call, or the clock went back */
	TW_OTHER_RUN = 12,	/* a run that is not one of this chart */
	TW_WRONG_WEIGHTS = 13,	/* not as many weights as steps */
	TW_UNBALANCED = 14,	/* a transition's sources and targets differ in weight */
	TW_FEW_OUTPUTS = 15,	/* fewer than 32 outputs lent */
	TW_BAD_TRACE = 16,	/* a bad record in a trace: for printed runs, no call below gives it */
	TW_TOO_FEW_BYTES = 17,	/* fewer bytes lent than the chart's file takes */
	TW_UNEVEN_LISTS = 18,	/* a shift's lists differ in length, or are longer than 4,096 */
	TW_NO_TEXT = 19,	/* bytes that are no text of the grammar (docs/GRAMMAR.md), at the place */
	TW_OTHER_INDEX = 20,	/* an index that is not exactly that of this chart */
	TW_SUM_TOO_LARGE = 21,	/* two weights of a step are more than 65,535 together */
	TW_OUT_OF_ORDER = 25	/* a step of a text is not named by its number, at the place */
};

/* Why a transition was not taken in a cycle; the first in this order counts. README.md says what to look at. */
enum tw_reason {
	TW_TAKEN = 0,
	TW_NOT_ACTIVE = 1,	/* a source is not active */
	TW_USED = 2,		/* a source is used by an earlier transition */
	TW_SIGNAL = 3,		/* a signal in on is 0, or one in off is 1 */
	TW_WAIT = 4,		/* a source has not been active for the wait */
	TW_OCCUPIED = 5,	/* a target is active; in edition 1 only, as the next */
	TW_CLAIMED = 6,		/* a target is claimed by an earlier transition */
	TW_HOLD = 7		/* the run is held; this comes before all the others */
};

enum tw_qualifier { TW_N, TW_R, TW_S, TW_L, TW_D, TW_P, TW_SD, TW_DS, TW_SL, TW_P1, TW_P0 };

/* A set is a 64-bit word: bit k is number k. Signals 0 to 31 are the inputs, signal 32 + k is the activity of action k as the call before left it. */

/* A chart: five counts, tables of which the entries below the count are the chart's and the others play no part, and the edition of the stepping rule.
   In edition 2 targets are not tested, and a step both left and entered stays active. */
struct tw_chart {
	size_t steps, actions, transitions, blocks, cases;
	uint8_t initial[TW_STEPS];					/* 1 initial, 0 not */
	uint8_t output[TW_ACTIONS];					/* 0 to 31: which output an action drives .. */
	int32_t value[TW_ACTIONS];					/* .. with what value */
	uint64_t sources[TW_TRANSITIONS], targets[TW_TRANSITIONS];	/* sets of steps */
	uint64_t on[TW_TRANSITIONS], off[TW_TRANSITIONS];		/* sets of signals */
	uint32_t wait[TW_TRANSITIONS];					/* ms */
	uint8_t blockstep[TW_BLOCKS], blockaction[TW_BLOCKS], qualifier[TW_BLOCKS];
	uint32_t duration[TW_BLOCKS];					/* ms; 0 where the qualifier is not timed */
	uint8_t casestep[TW_CASES], signal[TW_CASES], expected[TW_CASES];
	uint8_t edition;						/* 1 or 2 */
};

/* A run of a chart. After any calls from a start, each on the run that the one before left, an action is in `stored` exactly if some accepted call set it,
   the start counted, and no call from that one on, itself included, reset it: set, by an S block of a step that is active after the call, or a DS block
   of one whose counter has then reached its duration; reset, by an R block of such a step. */
struct tw_run {
	uint32_t clock;							/* ms, of the last accepted call */
	uint64_t active;						/* the active steps */
	uint64_t activity, stored, latched;				/* sets of actions */
	uint32_t counters[TW_STEPS];					/* ms that a step has been active; 0 for the others */
	uint32_t timers[TW_ACTIONS];					/* ms that an action has been latched; 0 for the others */
	uint64_t good, bad;						/* sets of cases: their marks */
	uint8_t hold;							/* 1 held by the key, 0 not */
};

/* Reads a chart file. Accepted: the chart, with zeros beyond its counts, and place 0. Refused by 1 to 10: an all-zero chart, and the place of the
   fault: the record's first byte for 1 to 7, the first surplus byte for 10, 0 for 8 and 9. */
enum tw_code tw_read(const uint8_t *bytes, size_t size, struct tw_chart *chart, size_t *place);

/* Reads a chart in the textual form of IEC 61131-3, the subset of docs/GRAMMAR.md (document 02, request iv). Accepted: the chart, with zeros beyond its
   counts, and place 0; it has no cases, waits 0 and edition 1, and action k drives output k with 1. Refused: an all-zero chart, and the place: the first
   byte that no text can continue through for 19, or the size if the text ends too early; the S of the first step name out of order for 25; 0 for the
   chart's own, 4 to 8. */
enum tw_code tw_read_text(const uint8_t *text, size_t size, struct tw_chart *chart, size_t *place);

/* Tests a chart that may have been altered, and writes nothing. Refused by 4; then by 5, 6 or 7 of the first bad entry, kind after kind; then by
   the edition's 5; then by 9, 8. Every call below that takes a chart tests it so, by "the chart's numbers". */
enum tw_code tw_test(const struct tw_chart *chart);

/* Writes a chart as a file into so many lent bytes. Accepted: the file's length; the bytes behind it stay. Refused by the chart's numbers, 17:
   length 0, and nothing is written. */
enum tw_code tw_write(const struct tw_chart *chart, uint8_t *bytes, size_t lent, size_t *length);

/* Starts a run at this clock; whatever was in it goes. Accepted: a run in the initial steps, and of so many lent outputs the first 32 are written, no
   others; it is not held. Refused by 15, the chart's numbers: an all-zero run, and the outputs stay. */
enum tw_code tw_start(const struct tw_chart *chart, struct tw_run *run, uint32_t clock, int32_t *outputs, size_t lent);

/* Makes one cycle at this clock, in ms modulo 2^32, with these inputs, bit k for input k. Accepted: the run moved on where it lies, the set of
   transitions taken, each transition's tw_reason with 0 beyond the last, and the first 32 outputs, no others. Refused by 15, the chart's numbers,
   12, 11: the run and the outputs stay, taken and all reasons are 0. */
enum tw_code tw_cycle(const struct tw_chart *chart, struct tw_run *run, uint32_t clock, uint32_t inputs, int32_t *outputs, size_t lent,
	uint64_t *taken, uint8_t reasons[TW_TRANSITIONS]);

/* Turns the key: a run is held, or released. Held, its cycles take no transition and its step counters stand still, while its action timers run on, and
   actions and outputs are worked out as usual. Accepted: the run with its mark 1, or 0, and nothing else of it changed; a held run may be held again.
   Refused by the chart's numbers, 12: the run stays. */
enum tw_code tw_hold(const struct tw_chart *chart, struct tw_run *run);
enum tw_code tw_release(const struct tw_chart *chart, struct tw_run *run);

/* Makes up to 4,096 cycles, number k at clocks[k] with inputs[k] and its activity into activities[k]: what tw_cycle does one after the other, up
   to the first refusal, but for the reasons, which it does not make. Accepted: all are made, and the run and the outputs are the last one's. Refused by 15, the chart's numbers, 12, 18: none is
   made, and everything stays. Refused by 11: `accepted` were made, the one with that number was refused, and everything is as those left it. */
enum tw_code tw_shift(const struct tw_chart *chart, struct tw_run *run, const uint32_t *clocks, size_t nclocks, const uint32_t *inputs,
	size_t ninputs, uint64_t *activities, size_t nactivities, int32_t *outputs, size_t lent, size_t *accepted);

/* An index of a chart: for every step, the set of transitions that have it as a source. */
struct tw_index {
	uint64_t leaving[TW_STEPS];
};

/* Builds a chart's index, once after reading. Accepted: the word of each step, and 0 beyond the last. Refused by the chart's numbers: all zeros. */
enum tw_code tw_index(const struct tw_chart *chart, struct tw_index *index);

/* Do what tw_cycle and tw_shift do, in everything, and consult only the transitions that leave some active step. Refused as they are, and by 20 after
   the chart's numbers and before 12. A shift tests the index once, and that is where it pays. */
enum tw_code tw_cycle_by(const struct tw_chart *chart, const struct tw_index *index, struct tw_run *run, uint32_t clock, uint32_t inputs,
	int32_t *outputs, size_t lent, uint64_t *taken, uint8_t reasons[TW_TRANSITIONS]);
enum tw_code tw_shift_by(const struct tw_chart *chart, const struct tw_index *index, struct tw_run *run, const uint32_t *clocks, size_t nclocks,
	const uint32_t *inputs, size_t ninputs, uint64_t *activities, size_t nactivities, int32_t *outputs, size_t lent, size_t *accepted);

struct tw_tallied {
	size_t passed, failed, notrun;
};

/* Counts a run's cases by their marks: failed if the bad one is set, passed if only the good one is, otherwise not run. Refused by the chart's
   numbers, 12: three zeros. */
enum tw_code tw_tally(const struct tw_chart *chart, const struct tw_run *run, struct tw_tallied *tallied);

struct tw_weighed {
	size_t transition;
	uint32_t total;
};

/* Weighs steps, a weight for each. Accepted: each transition's sources weigh as much as its targets, and the total is that of the initial steps.
   Refused by the chart's numbers, 13, 14: total 0. The transition is the first unbalanced one for 14, otherwise 0. */
enum tw_code tw_weigh(const struct tw_chart *chart, const uint16_t *weights, size_t nweights, struct tw_weighed *weighed);

/* Adds two weighings, step by step, into a third lent list. Accepted: sum[k] is first[k] + second[k], for every step. Refused by the chart's numbers,
   13 if any of the three lengths is not the number of steps, 21: nothing is written. The step is the first whose sum is above 65,535 for 21, otherwise
   0. */
enum tw_code tw_add(const struct tw_chart *chart, const uint16_t *first, size_t nfirst, const uint16_t *second, size_t nsecond, uint16_t *sum,
	size_t nsum, size_t *step);

/* Where a tool that takes the reader by itself stands in a file: the next record's place, and the kind before it. It begins with zeros. */
struct tw_reader {
	size_t at;
	uint16_t before;
};

struct tw_record {
	uint16_t kind;		/* 1 step, 2 action, 3 transition, 4 block, 5 case, 6 edition */
	size_t place, length;	/* of the body */
};

/* Finds a file's next record. Accepted: the record, and the reader goes on behind it; or the end, three zeros, and the reader stays. Refused by 1, 2,
   3, and by nothing else: kind and length 0, the record's own place, and the reader stays. Asked again after either, it answers the same. */
enum tw_code tw_next_record(const uint8_t *bytes, size_t size, struct tw_reader *reader, struct tw_record *record);

/* Does what tw_cycle does, in everything, by document 01's entry for a run that is lent to be advanced; for the tests. */
enum tw_code tw_advance(const struct tw_chart *chart, struct tw_run *run, uint32_t clock, uint32_t inputs, int32_t *outputs, size_t lent,
	uint64_t *taken, uint8_t reasons[TW_TRANSITIONS]);

/* A number in words, as "too late" for 11; "unknown" for one that is not above. */
const char *tw_name(enum tw_code code);

/* A reason in words, as "a wait" for 4; "unknown" for one that is not above. */
const char *tw_why(enum tw_reason reason);

#ifdef __cplusplus
}
#endif

#endif
