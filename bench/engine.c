/* The plain C engine: one flat chart, 64-bit words as sets, every call tests the chart, the index and the run that it is given, as documents 01 and 02
   ask, a shift once for all its cycles. */
#include "engine.h"

#include <string.h>

#define BIT(k) (UINT64_C(1) << (k))

/* Qualifiers L, D, SD, DS and SL, as bits. */
#define TIMED (1u << TW_L | 1u << TW_D | 1u << TW_SD | 1u << TW_DS | 1u << TW_SL)

/* The numbers from n on. */
static inline uint64_t from(size_t n)
{
	return n < 64 ? ~UINT64_C(0) << n : 0;
}

/* The signals that do not exist: those of actions from n on. */
static inline uint64_t signals_from(size_t actions)
{
	return from(32 + actions);
}

static inline uint32_t u16_at(const uint8_t *b)
{
	uint16_t x;
	memcpy(&x, b, sizeof x);
	return x;
}

static inline uint32_t u32_at(const uint8_t *b)
{
	uint32_t x;
	memcpy(&x, b, sizeof x);
	return x;
}

static inline uint64_t u64_at(const uint8_t *b)
{
	uint64_t x;
	memcpy(&x, b, sizeof x);
	return x;
}

static inline enum tw_code transition_code(uint64_t nostep, uint64_t nosignal, uint64_t sources, uint64_t targets, uint64_t on, uint64_t off, uint32_t wait)
{
	if (((sources | targets) & nostep) | ((on | off) & nosignal) | (wait > TW_LONGEST))
		return TW_BAD_FIELD;
	if (sources == 0 || targets == 0 || (sources & targets))
		return TW_BAD_STEPS;
	if (on & off)
		return TW_BAD_SIGNALS;
	return TW_ACCEPTED;
}

static inline unsigned block_bad(size_t steps, size_t actions, uint8_t step, uint8_t action, uint8_t qualifier, uint32_t duration)
{
	unsigned timed = qualifier < 32 && (TIMED >> qualifier & 1);
	return (step >= steps) | (action >= actions) | (qualifier > TW_P0) | (duration > (timed ? TW_LONGEST : 0));
}

static inline unsigned case_bad(size_t steps, size_t actions, uint8_t step, uint8_t signal, uint8_t expected)
{
	return (step >= steps) | (signal >= 32 + actions) | (expected > 1);
}

static inline int some_initial(const struct tw_chart *c)
{
	return c->steps != 0 && memchr(c->initial, 1, c->steps) != NULL;
}

/* What is tested after the records of a file: no initial step, two timed blocks for one action. */
static enum tw_code closing_code(const struct tw_chart *c)
{
	uint32_t seen = 0, twice = 0;
	if (!some_initial(c))
		return TW_NO_INITIAL;
	for (size_t i = 0; i < c->blocks; i++) {
		if (TIMED >> c->qualifier[i] & 1) {
			uint32_t bit = UINT32_C(1) << c->blockaction[i];
			twice |= seen & bit;
			seen |= bit;
		}
	}
	return twice ? TW_TIMED_TWICE : TW_ACCEPTED;
}

static const uint8_t LENGTHS[7] = { 0, 1, 5, 36, 7, 3, 1 };

static enum tw_code read_records(const uint8_t *bytes, size_t size, struct tw_chart *c, size_t *place)
{
	size_t at = 0;
	uint32_t before = 0;
	uint64_t nostep = 0, nosignal = 0;
	for (;;) {
		*place = at;
		if (size - at < 4)
			return TW_CUT;
		uint32_t length = u16_at(bytes + at), kind = u16_at(bytes + at + 2);
		if (kind > 6 || (kind != 0 && kind < before))
			return TW_BAD_KIND;
		if (length != LENGTHS[kind])
			return TW_BAD_LENGTH;
		if (size - at - 4 < length)
			return TW_CUT;
		const uint8_t *b = bytes + at + 4;
		size_t i;
		enum tw_code code;
		switch (kind) {
		case 1:
			i = c->steps;
			if (i == TW_STEPS)
				return TW_TOO_MANY;
			if (b[0] > 1)
				return TW_BAD_FIELD;
			c->initial[i] = b[0];
			c->steps = i + 1;
			break;
		case 2:
			i = c->actions;
			if (i == TW_ACTIONS)
				return TW_TOO_MANY;
			if (b[0] >= TW_OUTPUTS)
				return TW_BAD_FIELD;
			c->output[i] = b[0];
			c->value[i] = (int32_t)u32_at(b + 1);
			c->actions = i + 1;
			break;
		case 3:
			i = c->transitions;
			if (i == TW_TRANSITIONS)
				return TW_TOO_MANY;
			if (before != 3) {
				nostep = from(c->steps);
				nosignal = signals_from(c->actions);
			}
			c->sources[i] = u64_at(b);
			c->targets[i] = u64_at(b + 8);
			c->on[i] = u64_at(b + 16);
			c->off[i] = u64_at(b + 24);
			c->wait[i] = u32_at(b + 32);
			code = transition_code(nostep, nosignal, c->sources[i], c->targets[i], c->on[i], c->off[i], c->wait[i]);
			if (code)
				return code;
			c->transitions = i + 1;
			break;
		case 4:
			i = c->blocks;
			if (i == TW_BLOCKS)
				return TW_TOO_MANY;
			if (block_bad(c->steps, c->actions, b[0], b[1], b[2], u32_at(b + 3)))
				return TW_BAD_FIELD;
			c->blockstep[i] = b[0];
			c->blockaction[i] = b[1];
			c->qualifier[i] = b[2];
			c->duration[i] = u32_at(b + 3);
			c->blocks = i + 1;
			break;
		case 5:
			i = c->cases;
			if (i == TW_CASES)
				return TW_TOO_MANY;
			if (case_bad(c->steps, c->actions, b[0], b[1], b[2]))
				return TW_BAD_FIELD;
			c->casestep[i] = b[0];
			c->signal[i] = b[1];
			c->expected[i] = b[2];
			c->cases = i + 1;
			break;
		case 6:
			if (before == 6)
				return TW_TOO_MANY;
			if (b[0] != 2)
				return TW_BAD_FIELD;
			c->edition = 2;
			break;
		default:
			*place = at + 4;
			if (at + 4 < size)
				return TW_SURPLUS;
			*place = 0;
			return closing_code(c);
		}
		before = kind;
		at += 4 + length;
	}
}

enum tw_code c_read(const uint8_t *bytes, size_t size, struct tw_chart *chart, size_t *place)
{
	memset(chart, 0, sizeof *chart);
	chart->edition = 1;
	enum tw_code code = read_records(bytes, size, chart, place);
	if (code)
		memset(chart, 0, sizeof *chart);
	return code;
}

/* A bit for each of eight bytes that are 0 or 1, the first the least. */
static inline uint64_t bits_of(const uint8_t *flags)
{
	return u64_at(flags) * UINT64_C(0x0102040810204080) >> 56;
}

/* Column by column, which the compiler makes vectors of; then only the timed blocks one by one. `twice` tells of two for one action. */
static unsigned blocks_bad(const struct tw_chart *c, uint32_t *twice)
{
	uint8_t steps = (uint8_t)c->steps, actions = (uint8_t)c->actions, timed[TW_BLOCKS];
	uint32_t bad = 0, seen = 0;
	size_t n = c->blocks;
	*twice = 0;
	for (size_t i = 0; i < n; i++)
		bad |= (c->blockstep[i] >= steps) | (c->blockaction[i] >= actions) | (c->qualifier[i] > TW_P0);
	for (size_t i = 0; i < n; i++)
		timed[i] = (c->qualifier[i] >= TW_L) & (c->qualifier[i] <= TW_SL) & (c->qualifier[i] != TW_P);
	for (size_t i = 0; i < n; i++)
		bad |= (c->duration[i] > TW_LONGEST) | (c->duration[i] & (timed[i] - UINT32_C(1)));
	if (bad)
		return 1;
	for (size_t i = n; i % 8; i++)
		timed[i] = 0;
	for (size_t i = 0; i < n; i += 8) {
		for (uint64_t rest = bits_of(timed + i); rest; rest &= rest - 1) {
			uint32_t bit = UINT32_C(1) << c->blockaction[i + (size_t)__builtin_ctzll(rest)];
			*twice |= seen & bit;
			seen |= bit;
		}
	}
	return 0;
}

enum tw_code c_test(const struct tw_chart *c)
{
	if (c->steps > TW_STEPS || c->actions > TW_ACTIONS || c->transitions > TW_TRANSITIONS || c->blocks > TW_BLOCKS || c->cases > TW_CASES)
		return TW_TOO_MANY;
	/* The largest mark tells of all whether they fit, and then whether one is initial. */
	uint8_t mark = 0;
	unsigned bad = 0;
	for (size_t i = 0; i < c->steps; i++)
		mark = c->initial[i] > mark ? c->initial[i] : mark;
	for (size_t i = 0; i < c->actions; i++)
		bad |= c->output[i] >= TW_OUTPUTS;
	if (bad | (mark > 1))
		return TW_BAD_FIELD;
	uint64_t nostep = from(c->steps), nosignal = signals_from(c->actions);
	for (size_t i = 0; i < c->transitions; i++) {
		enum tw_code code = transition_code(nostep, nosignal, c->sources[i], c->targets[i], c->on[i], c->off[i], c->wait[i]);
		if (code)
			return code;
	}
	uint32_t twice;
	if (blocks_bad(c, &twice))
		return TW_BAD_FIELD;
	uint8_t steps = (uint8_t)c->steps, signals = (uint8_t)(32 + c->actions);
	for (size_t i = 0; i < c->cases; i++)
		bad |= (c->casestep[i] >= steps) | (c->signal[i] >= signals) | (c->expected[i] > 1);
	if (bad | (c->edition != 1 && c->edition != 2))
		return TW_BAD_FIELD;
	if (mark == 0)
		return TW_NO_INITIAL;
	return twice ? TW_TIMED_TWICE : TW_ACCEPTED;
}

/* A number's bytes, the least first; the place behind them. */
static inline uint8_t *put(uint8_t *b, uint64_t x, size_t size)
{
	memcpy(b, &x, size);
	return b + size;
}

static inline uint8_t *put_head(uint8_t *b, unsigned kind)
{
	b = put(b, LENGTHS[kind], 2);
	return put(b, kind, 2);
}

enum tw_code c_write(const struct tw_chart *c, uint8_t *bytes, size_t lent, size_t *length)
{
	*length = 0;
	enum tw_code code = c_test(c);
	if (code)
		return code;
	size_t whole = 5 * c->steps + 9 * c->actions + 40 * c->transitions + 11 * c->blocks + 7 * c->cases + (c->edition == 2 ? 5 : 0) + 4;
	if (lent < whole)
		return TW_TOO_FEW_BYTES;
	uint8_t *b = bytes;
	for (size_t i = 0; i < c->steps; i++) {
		b = put_head(b, 1);
		b = put(b, c->initial[i], 1);
	}
	for (size_t i = 0; i < c->actions; i++) {
		b = put_head(b, 2);
		b = put(b, c->output[i], 1);
		b = put(b, (uint32_t)c->value[i], 4);
	}
	for (size_t i = 0; i < c->transitions; i++) {
		b = put_head(b, 3);
		b = put(b, c->sources[i], 8);
		b = put(b, c->targets[i], 8);
		b = put(b, c->on[i], 8);
		b = put(b, c->off[i], 8);
		b = put(b, c->wait[i], 4);
	}
	for (size_t i = 0; i < c->blocks; i++) {
		b = put_head(b, 4);
		b = put(b, c->blockstep[i], 1);
		b = put(b, c->blockaction[i], 1);
		b = put(b, c->qualifier[i], 1);
		b = put(b, c->duration[i], 4);
	}
	for (size_t i = 0; i < c->cases; i++) {
		b = put_head(b, 5);
		b = put(b, c->casestep[i], 1);
		b = put(b, c->signal[i], 1);
		b = put(b, c->expected[i], 1);
	}
	if (c->edition == 2) {
		b = put_head(b, 6);
		b = put(b, 2, 1);
	}
	put_head(b, 0);
	*length = whole;
	return TW_ACCEPTED;
}

/* Counts are 0 outside the set and at most a day: as many are not 0 as there are members that are not 0 and not longer. */
static inline unsigned counts_bad(const uint32_t *counts, size_t n, uint64_t set)
{
	unsigned some = 0;
	for (size_t k = 0; k < n; k++)
		some += counts[k] != 0;
	for (; set; set &= set - 1) {
		uint32_t count = counts[__builtin_ctzll(set)];
		some -= (count != 0) & (count <= TW_LONGEST);
	}
	return some != 0;
}

static inline unsigned belongs(const struct tw_chart *c, const struct tw_run *r)
{
	uint64_t noaction = from(c->actions);
	if ((r->active & from(c->steps)) | ((r->activity | r->stored | r->latched) & noaction) | ((r->good | r->bad) & from(c->cases)))
		return 0;
	if (r->hold > 1)
		return 0;
	return !(counts_bad(r->counters, TW_STEPS, r->active) | counts_bad(r->timers, TW_ACTIONS, r->latched));
}

/* The counts of a set's members grow. With words, what those of the members have together; 0 for a null. */
static inline uint64_t grow(uint32_t *counts, uint64_t set, uint32_t elapsed, const uint64_t *words)
{
	uint64_t all = 0;
	for (; set; set &= set - 1) {
		unsigned k = (unsigned)__builtin_ctzll(set);
		uint32_t n = counts[k] + elapsed;
		counts[k] = n < TW_LONGEST ? n : TW_LONGEST;
		if (words)
			all |= words[k];
	}
	return all;
}

static inline void clear(uint32_t *counts, uint64_t set)
{
	for (; set; set &= set - 1)
		counts[__builtin_ctzll(set)] = 0;
}

/* Each source's counter has reached the wait. */
static inline int ripe(const uint32_t *counters, uint64_t sources, uint32_t wait)
{
	for (; sources; sources &= sources - 1)
		if (counters[__builtin_ctzll(sources)] < wait)
			return 0;
	return 1;
}

/* What the transitions taken so far leave and lead to. */
struct moves {
	uint64_t taken, left, targets;
};

/* Request (vi): why transition t is not taken after these moves, the first that speaks against it; targets only in edition 1. */
static inline enum tw_reason reason(const struct tw_chart *c, const struct tw_run *r, uint64_t signals, struct moves m, size_t t)
{
	uint64_t sources = c->sources[t], targets = c->targets[t];
	if (sources & ~r->active)
		return TW_NOT_ACTIVE;
	if (sources & m.left)
		return TW_USED;
	if ((c->on[t] & ~signals) | (c->off[t] & signals))
		return TW_SIGNAL;
	if (!ripe(r->counters, sources, c->wait[t]))
		return TW_WAIT;
	if (c->edition == 2)
		return TW_TAKEN;
	if (targets & r->active)
		return TW_OCCUPIED;
	return targets & m.targets ? TW_CLAIMED : TW_TAKEN;
}

/* The moves with those of transition t, if it is taken, and why it is not; no reason for a null. */
static inline __attribute__((always_inline)) struct moves consult(const struct tw_chart *c, const struct tw_run *r, uint64_t signals, struct moves m,
	size_t t, uint8_t *reasons)
{
	enum tw_reason why = reason(c, r, signals, m, t);
	if (reasons)
		reasons[t] = why;
	if (why == TW_TAKEN) {
		m.taken |= BIT(t);
		m.left |= c->sources[t];
		m.targets |= c->targets[t];
	}
	return m;
}

/* The transitions in number order. */
static inline struct moves choose(const struct tw_chart *c, const struct tw_run *r, uint64_t signals, uint8_t *reasons)
{
	struct moves m = { 0, 0, 0 };
	for (size_t t = 0; t < c->transitions; t++)
		m = consult(c, r, signals, m, t, reasons);
	return m;
}

/* Request (ix): only those that leave some active step; none of the others has an active source. */
static inline struct moves choose_from(const struct tw_chart *c, const struct tw_run *r, uint64_t signals, uint64_t leaving, uint8_t *reasons)
{
	struct moves m = { 0, 0, 0 };
	if (reasons)
		memset(reasons, TW_NOT_ACTIVE, c->transitions);
	for (; leaving; leaving &= leaving - 1)
		m = consult(c, r, signals, m, (size_t)__builtin_ctzll(leaving), reasons);
	return m;
}

static void mark(const struct tw_chart *c, struct tw_run *r, uint64_t left, uint64_t signals)
{
	for (size_t i = 0; i < c->cases; i++) {
		if (!(left >> c->casestep[i] & 1))
			continue;
		if ((signals >> c->signal[i] & 1) == c->expected[i])
			r->good |= BIT(i);
		else
			r->bad |= BIT(i);
	}
}

/* Paragraphs 4 to 6, P by request (ii): the run has its new steps and counters, and timers that have grown. It is compiled twice: for runs that move,
   and for held ones, in which no block is asked for a pulse. */
static inline __attribute__((always_inline)) void settle_after(const struct tw_chart *c, struct tw_run *r, uint64_t entered, uint64_t left,
	int32_t *outputs)
{
	uint64_t active = r->active, reset = 0, set = 0, latch = 0, want = 0, ripe = 0;
	for (size_t i = 0; i < c->blocks; i++) {
		unsigned step = c->blockstep[i], action = c->blockaction[i];
		uint64_t on = active >> step & 1;
		uint32_t count = r->counters[step], duration = c->duration[i];
		switch (c->qualifier[i]) {
		case TW_N: want |= on << action; break;
		case TW_R: reset |= on << action; break;
		case TW_S: set |= on << action; break;
		case TW_L: want |= (on & (count < duration)) << action; break;
		case TW_D: want |= (on & (count >= duration)) << action; break;
		case TW_SD:
			latch |= on << action;
			ripe |= (uint64_t)(r->timers[action] >= duration) << action;
			break;
		case TW_DS: set |= (on & (count >= duration)) << action; break;
		case TW_SL:
			latch |= on << action;
			ripe |= (uint64_t)(r->timers[action] < duration) << action;
			break;
		case TW_P: case TW_P1: want |= (entered >> step & 1) << action; break;
		case TW_P0: want |= (left >> step & 1) << action; break;
		}
	}
	r->stored = (r->stored | set) & ~reset;
	uint64_t latched = (r->latched | latch) & ~reset;
	clear(r->timers, r->latched & ~latched);
	r->latched = latched;
	r->activity = (r->stored | want | (latched & ripe)) & ~reset;
	memset(outputs, 0, TW_OUTPUTS * sizeof *outputs);
	for (size_t a = c->actions; a-- > 0;)
		if (r->activity >> a & 1)
			outputs[c->output[a]] = c->value[a];
}

static void settle(const struct tw_chart *c, struct tw_run *r, uint64_t entered, uint64_t left, int32_t *outputs)
{
	settle_after(c, r, entered, left, outputs);
}

enum tw_code c_start(const struct tw_chart *c, struct tw_run *r, uint32_t clock, int32_t *outputs, size_t lent)
{
	memset(r, 0, sizeof *r);
	if (lent < TW_OUTPUTS)
		return TW_FEW_OUTPUTS;
	enum tw_code code = c_test(c);
	if (code)
		return code;
	for (size_t i = 0; i < c->steps; i++)
		r->active |= (uint64_t)c->initial[i] << i;
	r->clock = clock;
	settle(c, r, r->active, 0, outputs);
	return TW_ACCEPTED;
}

/* Request (ix): a transition goes into the words of its sources. In a chart that was tested each has one. */
static inline void leaving_of(const struct tw_chart *c, uint64_t leaving[TW_STEPS])
{
	uint64_t bit = 1;
	memset(leaving, 0, TW_STEPS * sizeof *leaving);
	for (size_t t = 0, n = c->transitions; t < n; t++, bit <<= 1) {
		uint64_t sources = c->sources[t];
		do
			leaving[__builtin_ctzll(sources)] |= bit;
		while (sources &= sources - 1);
	}
}

enum tw_code c_index(const struct tw_chart *c, struct tw_index *x)
{
	enum tw_code code = c_test(c);
	if (code)
		memset(x, 0, sizeof *x);
	else
		leaving_of(c, x->leaving);
	return code;
}

static unsigned is_index(const struct tw_chart *c, const struct tw_index *x)
{
	uint64_t own[TW_STEPS];
	leaving_of(c, own);
	return !memcmp(own, x->leaving, sizeof own);
}

/* The tests that a cycle's clock has no part in; of an index, unless it is a null. */
static inline enum tw_code ready_code(const struct tw_chart *c, const struct tw_index *x, const struct tw_run *r, size_t lent)
{
	if (lent < TW_OUTPUTS)
		return TW_FEW_OUTPUTS;
	enum tw_code code = c_test(c);
	if (code)
		return code;
	if (x && !is_index(c, x))
		return TW_OTHER_INDEX;
	return belongs(c, r) ? TW_ACCEPTED : TW_OTHER_RUN;
}

/* Request (vii): the key turned, to hold or back, after the tests of a cycle but that of the outputs, which it has none of. */
static enum tw_code turn(const struct tw_chart *c, struct tw_run *r, uint8_t hold)
{
	enum tw_code code = ready_code(c, NULL, r, TW_OUTPUTS);
	if (code == TW_ACCEPTED)
		r->hold = hold;
	return code;
}

enum tw_code c_hold(const struct tw_chart *c, struct tw_run *r)
{
	return turn(c, r, 1);
}

enum tw_code c_release(const struct tw_chart *c, struct tw_run *r)
{
	return turn(c, r, 0);
}

/* A cycle of a chart, an index and a run that passed those tests: 11, then paragraphs 1 to 6; with no reasons for a null, and all transitions looked
   at for a null in the index's place. Each of its four callers has it for itself, with the nulls known. */
static inline __attribute__((always_inline)) enum tw_code advance(const struct tw_chart *c, const struct tw_index *x, struct tw_run *r, uint32_t clock,
	uint32_t inputs, int32_t *outputs, uint64_t *taken, uint8_t *reasons)
{
	uint32_t elapsed = clock - r->clock;
	if (elapsed > TW_LATEST)
		return TW_TOO_LATE;
	uint64_t leaving = grow(r->counters, r->active, elapsed, x ? x->leaving : NULL);
	grow(r->timers, r->latched, elapsed, NULL);
	uint64_t signals = inputs | r->activity << 32;
	struct moves m = x ? choose_from(c, r, signals, leaving, reasons) : choose(c, r, signals, reasons);
	/* In edition 1 no target stayed, so that all are entered. */
	uint64_t stayed = r->active & ~m.left, entered = m.targets & ~stayed;
	r->active = stayed | m.targets;
	/* A step that was not active has the counter 0. */
	clear(r->counters, m.left);
	if (m.left)
		mark(c, r, m.left, signals);
	settle(c, r, entered, m.left, outputs);
	r->clock = clock;
	*taken = m.taken;
	return TW_ACCEPTED;
}

/* Request (vii): the same of a held run. Nothing is chosen, left or entered, so only the timers grow before the actions. */
static enum tw_code stand(const struct tw_chart *c, struct tw_run *r, uint32_t clock, int32_t *outputs)
{
	uint32_t elapsed = clock - r->clock;
	if (elapsed > TW_LATEST)
		return TW_TOO_LATE;
	grow(r->timers, r->latched, elapsed, NULL);
	settle_after(c, r, 0, 0, outputs);
	r->clock = clock;
	return TW_ACCEPTED;
}

/* A cycle and a shift, with an index or a null in its place. */
static inline __attribute__((always_inline)) enum tw_code cycle(const struct tw_chart *c, const struct tw_index *x, struct tw_run *r, uint32_t clock,
	uint32_t inputs, int32_t *outputs, size_t lent, uint64_t *taken, uint8_t reasons[TW_TRANSITIONS])
{
	*taken = 0;
	memset(reasons, 0, TW_TRANSITIONS);
	enum tw_code code = ready_code(c, x, r, lent);
	if (code)
		return code;
	if (!r->hold)
		return advance(c, x, r, clock, inputs, outputs, taken, reasons);
	code = stand(c, r, clock, outputs);
	if (code == TW_ACCEPTED)
		memset(reasons, TW_HOLD, c->transitions);
	return code;
}

static inline __attribute__((always_inline)) enum tw_code shift(const struct tw_chart *c, const struct tw_index *x, struct tw_run *r,
	const uint32_t *clocks, size_t nclocks, const uint32_t *inputs, size_t ninputs, uint64_t *words, size_t nwords, int32_t *outputs, size_t lent,
	size_t *accepted)
{
	uint64_t taken;
	*accepted = 0;
	enum tw_code code = ready_code(c, x, r, lent);
	if (code)
		return code;
	if (nclocks != ninputs || nclocks != nwords || nclocks > TW_SHIFT)
		return TW_UNEVEN_LISTS;
	/* No cycle turns the key: it is asked for once. */
	size_t k = 0;
	if (r->hold) {
		for (; k < nclocks && !(code = stand(c, r, clocks[k], outputs)); k++)
			words[k] = r->activity;
	} else {
		for (; k < nclocks && !(code = advance(c, x, r, clocks[k], inputs[k], outputs, &taken, NULL)); k++)
			words[k] = r->activity;
	}
	*accepted = k;
	return code;
}

enum tw_code c_cycle(const struct tw_chart *c, struct tw_run *r, uint32_t clock, uint32_t inputs, int32_t *outputs, size_t lent, uint64_t *taken,
	uint8_t reasons[TW_TRANSITIONS])
{
	return cycle(c, NULL, r, clock, inputs, outputs, lent, taken, reasons);
}

enum tw_code c_cycle_by(const struct tw_chart *c, const struct tw_index *x, struct tw_run *r, uint32_t clock, uint32_t inputs, int32_t *outputs,
	size_t lent, uint64_t *taken, uint8_t reasons[TW_TRANSITIONS])
{
	return cycle(c, x, r, clock, inputs, outputs, lent, taken, reasons);
}

enum tw_code c_shift(const struct tw_chart *c, struct tw_run *r, const uint32_t *clocks, size_t nclocks, const uint32_t *inputs, size_t ninputs,
	uint64_t *words, size_t nwords, int32_t *outputs, size_t lent, size_t *accepted)
{
	return shift(c, NULL, r, clocks, nclocks, inputs, ninputs, words, nwords, outputs, lent, accepted);
}

enum tw_code c_shift_by(const struct tw_chart *c, const struct tw_index *x, struct tw_run *r, const uint32_t *clocks, size_t nclocks,
	const uint32_t *inputs, size_t ninputs, uint64_t *words, size_t nwords, int32_t *outputs, size_t lent, size_t *accepted)
{
	return shift(c, x, r, clocks, nclocks, inputs, ninputs, words, nwords, outputs, lent, accepted);
}

/* Request (x): one pass, which the compiler makes vectors of, for the sums and whether one is too large, which is then less than either weight. The
   first such one is looked for only where there is one. */
static inline enum tw_code add(size_t n, const uint16_t *first, const uint16_t *second, uint16_t *sum, size_t *step)
{
	uint16_t own[TW_STEPS], above = 0;
	for (size_t k = 0; k < n; k++) {
		own[k] = (uint16_t)(first[k] + second[k]);
		above |= own[k] < first[k];
	}
	if (above) {
		size_t k = 0;
		while (own[k] >= first[k])
			k++;
		*step = k;
		return TW_SUM_TOO_LARGE;
	}
	memcpy(sum, own, n * sizeof *own);
	return TW_ACCEPTED;
}

enum tw_code c_add(const struct tw_chart *c, const uint16_t *first, size_t nfirst, const uint16_t *second, size_t nsecond, uint16_t *sum, size_t nsum,
	size_t *step)
{
	*step = 0;
	enum tw_code code = c_test(c);
	if (code)
		return code;
	if (nfirst != c->steps || nsecond != c->steps || nsum != c->steps)
		return TW_WRONG_WEIGHTS;
	return add(c->steps, first, second, sum, step);
}
