/* Runs the library and the plain C engine on the same charts and inputs.

     bench compare SEED COUNT               COUNT random charts, good and damaged: every answer and all that is lent equal, or exit 1
     bench soak    SEED CHARTS N            N thousand cycles on each of CHARTS charts, compared after each: equal, or exit 1
     bench cycles  CHART ENGINE SEED N      N cycles of small, typical, full, waiting, crowded or sparse, with -2 behind it in edition 2, on the engine
                                            proved, c or both (both: exit 1 if they differ)
     bench shift   CHART ENGINE SEED N      N cycles, at most 4,096, in one shift
     bench cycles-by CHART ENGINE SEED N    those cycles, and that shift, with an index that was built before (both: with and without one, exit 1 if
     bench shift-by  CHART ENGINE SEED N    any two of the four differ)
     bench held-cycles CHART ENGINE SEED N  N cycles, at most 3,996, of a run that has made 100 and is held by the key
     bench held-shift  CHART ENGINE SEED N  N cycles of such a run, at most 4,096, in one shift
     bench turned  CHART ENGINE SEED N      N cycles, at most 4,096, singly and in shifts, with and without an index, and the key turned between them
     bench index   CHART ENGINE SEED N      N indexes built
     bench adding  CHART ENGINE SEED N      N additions of two weighings that fit
     bench reads   CHART ENGINE SEED N      N readings of the chart's bytes
     bench tests   CHART ENGINE SEED N      N tests of the held chart
     bench writes  CHART ENGINE SEED N      N writings of the held chart
     bench time    CHART SEED N             nanoseconds of both for one of N cycles and of N in one shift, without and with an index and with the key set
                                            (N at most 3,996), of N indexes, N additions, N readings, N tests and N writings, and their ratios

   Charts and inputs are made at run time from the seed, and both engines are compiled apart from this file, so that no call is folded away. */
#include "engine.h"

#include <stdio.h>
#include <stdlib.h>
#include <string.h>
#include <time.h>

static uint64_t state;

static uint32_t any(uint32_t below)
{
	state = state * UINT64_C(6364136223846793005) + UINT64_C(1442695040888963407);
	return (uint32_t)(state >> 33) % below;
}

static uint64_t any_word(void)
{
	return (uint64_t)any(1u << 16) << 48 | (uint64_t)any(1u << 16) << 32 | (uint64_t)any(1u << 16) << 16 | any(1u << 16);
}

/* A chart file as it is written. */
struct file {
	uint8_t bytes[8192];
	size_t size;
};

static void put(struct file *f, uint64_t x, unsigned size)
{
	for (unsigned i = 0; i < size; i++)
		f->bytes[f->size++] = (uint8_t)(x >> 8 * i);
}

static void head(struct file *f, unsigned length, unsigned kind)
{
	put(f, length, 2);
	put(f, kind, 2);
}

static void step(struct file *f, unsigned initial)
{
	head(f, 1, 1);
	put(f, initial, 1);
}

static void action(struct file *f, unsigned output, int32_t value)
{
	head(f, 5, 2);
	put(f, output, 1);
	put(f, (uint32_t)value, 4);
}

static void transition(struct file *f, uint64_t sources, uint64_t targets, uint64_t on, uint64_t off, uint32_t wait)
{
	head(f, 36, 3);
	put(f, sources, 8);
	put(f, targets, 8);
	put(f, on, 8);
	put(f, off, 8);
	put(f, wait, 4);
}

static void block(struct file *f, unsigned step, unsigned action, unsigned qualifier, uint32_t duration)
{
	head(f, 7, 4);
	put(f, step, 1);
	put(f, action, 1);
	put(f, qualifier, 1);
	put(f, duration, 4);
}

static void case_of(struct file *f, unsigned step, unsigned signal, unsigned expected)
{
	head(f, 3, 5);
	put(f, step, 1);
	put(f, signal, 1);
	put(f, expected, 1);
}

static void edition(struct file *f, unsigned which)
{
	head(f, 1, 6);
	put(f, which, 1);
}

#define BIT(k) (UINT64_C(1) << (k))

static const unsigned UNTIMED[] = { TW_N, TW_R, TW_S, TW_P, TW_P1, TW_P0, TW_N, TW_N };
static const unsigned TIMED[] = { TW_L, TW_D, TW_SD, TW_DS, TW_SL };

/* Blocks over all steps and actions; the first one of an action is timed, as long as there are such. */
static void some_blocks(struct file *f, unsigned n, unsigned steps, unsigned actions)
{
	for (unsigned i = 0; i < n; i++) {
		if (i < actions)
			block(f, i * 5 % steps, i, TIMED[i % 5], any(200));
		else
			block(f, any(steps), any(actions), UNTIMED[any(8)], 0);
	}
}

static void some_cases(struct file *f, unsigned n, unsigned steps, unsigned actions)
{
	for (unsigned i = 0; i < n; i++)
		case_of(f, i % steps, any(32 + actions), any(2));
}

/* A ring of four steps with one active. */
static void small(struct file *f)
{
	for (unsigned i = 0; i < 4; i++)
		step(f, i == 0);
	for (unsigned i = 0; i < 4; i++)
		action(f, i, (int32_t)(100 + i));
	for (unsigned i = 0; i < 4; i++)
		transition(f, BIT(i), BIT((i + 1) % 4), BIT(any(32)), 0, i == 2 ? 40 : 0);
	some_blocks(f, 8, 4, 4);
	some_cases(f, 4, 4, 4);
}

/* Twelve steps with two active: a ring with guards and waits, a fork, a join and two leaps. */
static void typical(struct file *f)
{
	for (unsigned i = 0; i < 12; i++)
		step(f, i == 0 || i == 6);
	for (unsigned i = 0; i < 12; i++)
		action(f, i % 8, (int32_t)(1000 - 200 * i));
	for (unsigned i = 0; i < 12; i++)
		transition(f, BIT(i), BIT((i + 1) % 12), BIT(any(32)), 0, i % 3 == 0 ? any(60) : 0);
	transition(f, BIT(1), BIT(2) | BIT(3), BIT(any(16)), BIT(16 + any(16)), 0);
	transition(f, BIT(2) | BIT(3), BIT(4), 0, BIT(any(32)), 20);
	transition(f, BIT(8), BIT(10), BIT(32 + any(12)), 0, 0);
	transition(f, BIT(10), BIT(1), 0, BIT(any(32)) | BIT(32 + any(12)), 30);
	some_blocks(f, 40, 12, 12);
	some_cases(f, 12, 12, 12);
}

/* Every limit reached: 32 pairs of steps, one of each pair active, which most transitions are free to leave for the other. */
static void full(struct file *f)
{
	for (unsigned i = 0; i < 64; i++)
		step(f, i % 2 == 0);
	for (unsigned i = 0; i < 32; i++)
		action(f, any(32), (int32_t)any_word());
	for (unsigned i = 0; i < 64; i++)
		transition(f, BIT(i), BIT(i ^ 1), i % 4 == 0 ? BIT(any(32)) : 0, i % 8 == 3 ? BIT(any(64)) : 0, i % 8 == 5 ? any(50) : 0);
	some_blocks(f, 256, 64, 32);
	some_cases(f, 64, 64, 32);
}

/* Every limit reached, and nearly all of it waits: a ring of 32 pairs of steps, one of each pair active. A transition leaves the active ones of two
   neighbouring pairs for their others, so that the two sources have been active for different times, and needs no signal but some hundred ms. */
static void waiting(struct file *f)
{
	for (unsigned i = 0; i < 64; i++)
		step(f, i % 2 == 0);
	for (unsigned i = 0; i < 32; i++)
		action(f, any(32), (int32_t)any_word());
	for (unsigned i = 0; i < 64; i++) {
		uint64_t sources = BIT(i) | BIT((i + 2) % 64), targets = BIT(i ^ 1) | BIT((i + 2) % 64 ^ 1);
		transition(f, sources, targets, 0, 0, 500 + any(1500));
	}
	some_blocks(f, 256, 64, 32);
	some_cases(f, 64, 64, 32);
}

/* A ring of 32 steps in which they meet: from each one transition leads to the next, and another is a fork or a join, by turns. In edition 2 many a step
   is left and entered at once, or led to by two or while it stays; in edition 1 transitions wait for such targets. */
static void crowded(struct file *f)
{
	for (unsigned i = 0; i < 32; i++)
		step(f, i % 2 == 0);
	for (unsigned i = 0; i < 32; i++)
		action(f, any(32), (int32_t)any_word());
	for (unsigned i = 0; i < 32; i++) {
		uint64_t here = BIT(i), next = BIT((i + 1) % 32), far = BIT((i + 7) % 32);
		transition(f, here, next, BIT(any(32)), 0, i % 8 == 3 ? any(50) : 0);
		transition(f, i % 2 ? here | next : here, i % 2 ? far : next | far, 0, BIT(any(64)), 0);
	}
	some_blocks(f, 256, 32, 32);
	some_cases(f, 64, 32, 32);
}

/* A transition that is taken now and then: on two inputs, and some after a wait. */
static void seldom(struct file *f, uint64_t sources, uint64_t targets)
{
	transition(f, sources, targets, BIT(any(16)) | BIT(16 + any(16)), 0, any(2) ? any(300) : 0);
}

/* Every limit reached, and one or two steps active: a ring of eight stretches of eight steps, each with a fork to two branches of two and their join.
   Seven transitions make a stretch. Eight more lead past a fork, or past the first step of the next stretch, while some action is not active: they share
   their source with one or two others. */
static void sparse(struct file *f)
{
	for (unsigned i = 0; i < 64; i++)
		step(f, i == 0);
	for (unsigned i = 0; i < 32; i++)
		action(f, any(32), (int32_t)any_word());
	for (unsigned i = 0; i < 64; i += 8) {
		uint64_t first = BIT(i), second = BIT(i + 1), last = BIT(i + 7), next = BIT((i + 8) % 64);
		seldom(f, first, second);
		if (i % 32 < 16)
			transition(f, second, last, BIT(any(32)), BIT(32 + any(32)), any(100));
		if (i % 32 == 0)
			transition(f, second, next, BIT(any(32)), BIT(32 + any(32)), any(100));
		seldom(f, second, BIT(i + 2));
		seldom(f, BIT(i + 2), BIT(i + 3) | BIT(i + 5));
		seldom(f, BIT(i + 3), BIT(i + 4));
		seldom(f, BIT(i + 5), BIT(i + 6));
		seldom(f, BIT(i + 4) | BIT(i + 6), last);
		if (i % 32 == 16)
			transition(f, last, BIT((i + 9) % 64), BIT(any(32)), BIT(32 + any(32)), any(100));
		seldom(f, last, next);
	}
	some_blocks(f, 256, 64, 32);
	some_cases(f, 64, 64, 32);
}

/* A chart with any fields that fit, then perhaps a damage. */
static void random_chart(struct file *f)
{
	unsigned steps = any(16) ? 1 + any(any(2) ? 64 : 8) : any(70), actions = any(any(2) ? 33 : 5), n = any(any(2) ? 65 : 9);
	unsigned odd = any(4) == 0 ? 40 : 0;
	for (unsigned i = 0; i < steps; i++)
		step(f, any(3) == 0);
	for (unsigned i = 0; i < actions; i++)
		action(f, any(32), (int32_t)any_word());
	uint64_t all = steps >= 64 ? ~UINT64_C(0) : BIT(steps) - 1, signals = BIT(32) - 1 + (BIT(actions) - 1) * BIT(32);
	for (unsigned i = 0; i < n && steps > 1; i++) {
		uint64_t sources = any(4) ? BIT(any(steps) % 64) : any_word() & any_word() & any_word() & all;
		uint64_t targets = (any(4) ? BIT(any(steps) % 64) : any_word() & any_word() & any_word() & all) & ~sources;
		uint64_t on = any(3) ? 0 : any_word() & any_word() & any_word() & signals;
		uint64_t off = any(3) ? 0 : any_word() & any_word() & any_word() & signals & ~on;
		if (!odd && (!sources || !targets))
			continue;
		if (odd && any(odd) == 0)
			on |= off;
		transition(f, sources, targets, on, off, any(3) ? any(100) : any(any(9) ? 1000 : 86400001));
	}
	n = actions && steps ? any(any(2) ? 257 : 20) : 0;
	uint64_t timed = 0;
	for (unsigned i = 0; i < n; i++) {
		unsigned a = any(actions), q = any(11 + (odd && any(odd) == 0));
		int is_timed = q == TW_L || q == TW_D || q == TW_SD || q == TW_DS || q == TW_SL;
		if (is_timed && (timed >> a & 1) && !(odd && any(odd) == 0))
			is_timed = 0, q = any(3);
		if (is_timed)
			timed |= BIT(a);
		block(f, any(steps), a, q, is_timed ? any(300) : odd && any(odd) == 0);
	}
	n = steps ? any(65) : 0;
	for (unsigned i = 0; i < n; i++)
		case_of(f, any(steps), any(32 + actions), any(2));
	for (n = any(2) + (odd && any(odd) == 0); n > 0; n--)
		edition(f, odd && any(odd) == 0 ? any(256) : 2);
	head(f, 0, 0);
	if (any(6) == 0)
		f->bytes[any((uint32_t)f->size)] ^= (uint8_t)(1u << any(8));
	if (any(12) == 0)
		f->size = any((uint32_t)f->size);
	if (any(12) == 0)
		put(f, any_word(), 1 + any(4));
}

/* A shift may be lent one more than it takes; it is refused then, and the last one is never read. A run that is held and then counted has made some
   cycles before. For the numbers of cycles that are counted, whose difference is to be that of the cycles alone, the same inputs are made. */
enum { ROOM = TW_SHIFT, BEFORE = 100, COUNTED = 400 };
static uint32_t clocks[BEFORE + ROOM + 1], inputs[BEFORE + ROOM + 1];

/* N clocks that go on from `last` by up to 50 ms; with `jumps` now and then some that go back or on by up to two minutes, so that cycles in the
   middle are refused. */
static void some_inputs(uint32_t last, int jumps, uint32_t n)
{
	for (size_t i = 0; i < n; i++) {
		clocks[i] = last + any(50);
		if (jumps && any(10) == 0)
			clocks[i] = last + any(any(2) ? TW_LATEST + 2 : 2 * TW_LATEST) - any(any(4) ? 1 : 100);
		if (clocks[i] - last <= TW_LATEST)
			last = clocks[i];
		inputs[i] = (uint32_t)any_word();
	}
}

/* A run goes by stretches: the key is turned, or not, and so many cycles follow, singly or in one shift, with an index or without. For the length of
   some the mark is altered: by its last bit, which leaves a run of this chart, or by any. For others a bit of the index is, and then both engines are
   given it. */
enum { WITH_PROVED = 1, WITH_PLAIN = 2, WITH_BOTH = 3 };
struct stretch {
	enum { LEFT, HELD, RELEASED } key;
	uint8_t alter;
	unsigned by;
	size_t index_at;
	uint8_t index_by;
	int shift;
	uint32_t cycles;
};
enum { STRETCHES = 64 };
static struct stretch plan[STRETCHES];

/* With an exact index one engine may be given it where the other is not. */
static void some_stretches(int exact)
{
	for (size_t k = 0; k < STRETCHES; k++) {
		uint32_t key = any(8);
		plan[k].key = key == 0 ? HELD : key < 5 ? RELEASED : LEFT;
		plan[k].alter = any(16) ? 0 : any(2) ? 1 : (uint8_t)(1u << any(8));
		plan[k].index_at = any(sizeof (struct tw_index));
		plan[k].index_by = any(32) ? 0 : (uint8_t)(1u << any(8));
		plan[k].by = plan[k].index_by ? WITH_BOTH : exact ? any(4) : any(2) * WITH_BOTH;
		plan[k].shift = any(2) == 0;
		plan[k].cycles = any(any(4) ? 10 : 200);
	}
}

/* Two weighings. A list may be lent with one weight more than there are steps at most; it is refused then, and the last one is never read. */
enum { WEIGHTS = TW_STEPS + 1 };
static uint16_t weighings[2][WEIGHTS];

/* Sums that fit, one in four of them just so; with `above` now and then one that does not, by 1 or by more. */
static void some_weights(int above)
{
	for (size_t k = 0; k < WEIGHTS; k++) {
		uint32_t sum = any(4) ? any(UINT16_MAX + 1) : UINT16_MAX;
		if (above && any(40) == 0)
			sum = UINT16_MAX + 1 + any(2) * any(UINT16_MAX);
		uint32_t least = sum > UINT16_MAX ? sum - UINT16_MAX : 0;
		weighings[0][k] = (uint16_t)(least + any(sum + 1 - 2 * least));
		weighings[1][k] = (uint16_t)(sum - weighings[0][k]);
	}
}

/* The chart of a name; with -2 behind it, in edition 2. */
static void chart_of(const char *name, struct file *f)
{
	static const struct {
		const char *name;
		void (*put)(struct file *);
	} charts[] = { { "small", small }, { "typical", typical }, { "full", full }, { "waiting", waiting }, { "crowded", crowded },
		{ "sparse", sparse } };
	for (size_t k = 0; k < sizeof charts / sizeof *charts; k++) {
		size_t n = strlen(charts[k].name);
		if (strncmp(name, charts[k].name, n) || (name[n] && strcmp(name + n, "-2")))
			continue;
		f->size = 0;
		charts[k].put(f);
		if (name[n])
			edition(f, 2);
		head(f, 0, 0);
		return;
	}
	fprintf(stderr, "no chart %s\n", name);
	exit(2);
}

struct engine {
	enum tw_code (*read)(const uint8_t *, size_t, struct tw_chart *, size_t *);
	enum tw_code (*test)(const struct tw_chart *);
	enum tw_code (*write)(const struct tw_chart *, uint8_t *, size_t, size_t *);
	enum tw_code (*start)(const struct tw_chart *, struct tw_run *, uint32_t, int32_t *, size_t);
	enum tw_code (*cycle)(const struct tw_chart *, struct tw_run *, uint32_t, uint32_t, int32_t *, size_t, uint64_t *, uint8_t *);
	enum tw_code (*shift)(const struct tw_chart *, struct tw_run *, const uint32_t *, size_t, const uint32_t *, size_t, uint64_t *, size_t,
		int32_t *, size_t, size_t *);
	enum tw_code (*hold)(const struct tw_chart *, struct tw_run *);
	enum tw_code (*release)(const struct tw_chart *, struct tw_run *);
	enum tw_code (*index)(const struct tw_chart *, struct tw_index *);
	enum tw_code (*cycle_by)(const struct tw_chart *, const struct tw_index *, struct tw_run *, uint32_t, uint32_t, int32_t *, size_t, uint64_t *,
		uint8_t *);
	enum tw_code (*shift_by)(const struct tw_chart *, const struct tw_index *, struct tw_run *, const uint32_t *, size_t, const uint32_t *, size_t,
		uint64_t *, size_t, int32_t *, size_t, size_t *);
	enum tw_code (*add)(const struct tw_chart *, const uint16_t *, size_t, const uint16_t *, size_t, uint16_t *, size_t, size_t *);
	unsigned with;
};

static const struct engine PROVED = { tw_read, tw_test, tw_write, tw_start, tw_cycle, tw_shift, tw_hold, tw_release, tw_index, tw_cycle_by,
	tw_shift_by, tw_add, WITH_PROVED };
static const struct engine PLAIN = { c_read, c_test, c_write, c_start, c_cycle, c_shift, c_hold, c_release, c_index, c_cycle_by, c_shift_by,
	c_add, WITH_PLAIN };

/* All that calls answer or leave: numbers, what was counted, the chart, its index and the run, and what was lent. */
struct bench {
	uint64_t sum, accepted, held, taken;
	size_t place, length, shifted;
	struct tw_chart chart;
	struct tw_index index;
	struct tw_run run;
	int32_t outputs[TW_OUTPUTS + 4];
	uint64_t activities[ROOM + 1];
	uint8_t file[8192];
	uint8_t reasons[TW_TRANSITIONS];
	size_t step;
	uint16_t weights[WEIGHTS];
};

static void blank(struct bench *b)
{
	memset(b, 165, sizeof *b);
	b->sum = b->accepted = b->held = 0;
}

/* Whether a run is held once it is started; then a byte of the chart, of the run and of the index that is altered, and how. An index built first is that
   of the chart before. */
static int held_first, index_first;
static size_t chart_at, run_at, index_at;
static uint8_t chart_by, run_by, index_by;

static void read_and_start(const struct engine *e, const struct file *f, struct bench *b)
{
	b->sum += e->read(f->bytes, f->size, &b->chart, &b->place);
	b->sum += e->start(&b->chart, &b->run, clocks[0], b->outputs, TW_OUTPUTS + 4);
	if (held_first)
		b->sum += e->hold(&b->chart, &b->run);
	if (index_first)
		b->sum += e->index(&b->chart, &b->index);
	((uint8_t *)&b->chart)[chart_at] ^= chart_by;
	((uint8_t *)&b->run)[run_at] ^= run_by;
	if (!index_first)
		b->sum += e->index(&b->chart, &b->index);
	((uint8_t *)&b->index)[index_at] ^= index_by;
}

static void make_cycles(const struct engine *e, int by, uint32_t from, uint32_t n, struct bench *b)
{
	for (uint32_t i = from; i < from + n; i++) {
		uint32_t clock = clocks[i % ROOM], given = inputs[i % ROOM];
		enum tw_code code = by
			? e->cycle_by(&b->chart, &b->index, &b->run, clock, given, b->outputs, TW_OUTPUTS + 4, &b->taken, b->reasons)
			: e->cycle(&b->chart, &b->run, clock, given, b->outputs, TW_OUTPUTS + 4, &b->taken, b->reasons);
		b->sum += code;
		b->accepted += code == TW_ACCEPTED;
	}
}

/* N cycles from number `from` on in a shift, of which each list, clocks, inputs and activity words, is cut by so many. */
static void make_shift(const struct engine *e, int by, uint32_t from, uint32_t n, const uint32_t less[3], uint64_t *words, struct bench *b)
{
	const uint32_t *c = clocks + from, *i = inputs + from;
	b->sum += by
		? e->shift_by(&b->chart, &b->index, &b->run, c, n - less[0], i, n - less[1], words, n - less[2], b->outputs, TW_OUTPUTS + 4, &b->shifted)
		: e->shift(&b->chart, &b->run, c, n - less[0], i, n - less[1], words, n - less[2], b->outputs, TW_OUTPUTS + 4, &b->shifted);
}

/* How many cycles of such stretches the library made with an index. */
static uint64_t indexed;

static const uint32_t UNCUT[3] = { 0, 0, 0 };

/* N cycles by the plan. Where a shift is refused, the next stretch goes on behind that cycle. */
static void make_stretches(const struct engine *e, uint32_t n, struct bench *b)
{
	uint32_t i = 0;
	for (uint32_t k = 0; i < n; k++) {
		const struct stretch *s = &plan[k % STRETCHES];
		uint32_t many = s->cycles < n - i ? s->cycles : n - i;
		uint64_t yet = b->accepted;
		int by = (s->by & e->with) != 0;
		b->run.hold ^= s->alter;
		((uint8_t *)&b->index)[s->index_at] ^= s->index_by;
		if (s->key != LEFT)
			b->sum += (s->key == HELD ? e->hold : e->release)(&b->chart, &b->run);
		if (s->shift) {
			make_shift(e, by, i, many, UNCUT, b->activities + i, b);
			b->accepted += b->shifted;
			many = b->shifted < many ? (uint32_t)b->shifted + 1 : many;
		} else {
			make_cycles(e, by, i, many, b);
		}
		if (b->run.hold)
			b->held += b->accepted - yet;
		if (by && e->with == WITH_PROVED)
			indexed += b->accepted - yet;
		((uint8_t *)&b->index)[s->index_at] ^= s->index_by;
		b->run.hold ^= s->alter;
		i += many;
	}
}

/* By how many the two weighings, and the list lent for their sum, are longer than the chart has steps; beyond the room they begin at none again. And
   how many additions the library accepted, and refused by 13 and by 21. */
static uint32_t more[3];
static uint32_t added, uneven, too_large;

static void make_sums(const struct engine *e, uint32_t n, struct bench *b)
{
	enum tw_code code = TW_ACCEPTED;
	size_t lengths[3];
	for (int i = 0; i < 3; i++)
		lengths[i] = (b->chart.steps + more[i]) % (WEIGHTS + 1);
	for (uint32_t i = 0; i < n; i++)
		b->sum += code = e->add(&b->chart, weighings[0], lengths[0], weighings[1], lengths[1], b->weights, lengths[2], &b->step);
	if (e->with == WITH_PROVED) {
		added += code == TW_ACCEPTED ? n : 0;
		uneven += code == TW_WRONG_WEIGHTS ? n : 0;
		too_large += code == TW_SUM_TOO_LARGE ? n : 0;
	}
}

/* By how many a shift's lists are cut; and how many bytes are lent to be written. */
static uint32_t cut[3];
static size_t lent = sizeof ((struct bench *)0)->file;

static int is_held(const char *what)
{
	return !strncmp(what, "held-", 5);
}

static int is_by(const char *what)
{
	size_t n = strlen(what);
	return n > 3 && !strcmp(what + n - 3, "-by");
}

/* What goes before the part that is timed. */
static void prepare(const char *what, const struct engine *e, const struct file *f, struct bench *b)
{
	if (strcmp(what, "reads"))
		read_and_start(e, f, b);
	if (is_held(what)) {
		make_cycles(e, 0, 0, BEFORE, b);
		b->sum += e->hold(&b->chart, &b->run);
	}
}

static void measure(const char *what, const struct engine *e, const struct file *f, uint32_t n, struct bench *b)
{
	uint32_t from = is_held(what) ? BEFORE : 0;
	if (!strcmp(what, "cycles") || !strcmp(what, "cycles-by") || !strcmp(what, "held-cycles")) {
		make_cycles(e, is_by(what), from, n, b);
	} else if (!strcmp(what, "shift") || !strcmp(what, "shift-by") || !strcmp(what, "held-shift")) {
		make_shift(e, is_by(what), from, n, cut, b->activities, b);
	} else if (!strcmp(what, "turned")) {
		make_stretches(e, n, b);
	} else if (!strcmp(what, "index")) {
		for (uint32_t i = 0; i < n; i++)
			b->sum += e->index(&b->chart, &b->index);
	} else if (!strcmp(what, "adding")) {
		make_sums(e, n, b);
	} else if (!strcmp(what, "reads")) {
		for (uint32_t i = 0; i < n; i++)
			b->sum += e->read(f->bytes, f->size, &b->chart, &b->place);
	} else if (!strcmp(what, "tests")) {
		for (uint32_t i = 0; i < n; i++)
			b->sum += e->test(&b->chart);
	} else if (!strcmp(what, "writes")) {
		for (uint32_t i = 0; i < n; i++)
			b->sum += e->write(&b->chart, b->file, lent, &b->length);
	} else {
		fprintf(stderr, "no measure %s\n", what);
		exit(2);
	}
}

static void zero(void *in, size_t from, size_t to)
{
	memset((uint8_t *)in + from, 0, to - from);
}

/* What lies behind the edition, between the clock and the active steps, and behind the hold mark, is nobody's. */
static void even(struct tw_chart *chart, struct tw_run *run)
{
	zero(chart, offsetof(struct tw_chart, edition) + sizeof chart->edition, sizeof *chart);
	zero(run, sizeof run->clock, offsetof(struct tw_run, active));
	zero(run, offsetof(struct tw_run, hold) + sizeof run->hold, sizeof *run);
}

static int equal(const char *what, struct bench *proved, struct bench *c)
{
	even(&proved->chart, &proved->run);
	even(&c->chart, &c->run);
	if (!memcmp(proved, c, sizeof *c))
		return 1;
	const uint8_t *p = (const uint8_t *)proved, *q = (const uint8_t *)c;
	size_t at = 0;
	while (p[at] == q[at])
		at++;
	printf("%s differ, first at byte %zu of struct bench; numbers %llu and %llu, accepted %llu and %llu\n", what, at,
		(unsigned long long)proved->sum, (unsigned long long)c->sum, (unsigned long long)proved->accepted, (unsigned long long)c->accepted);
	return 0;
}

static void make(const char *what, const struct engine *e, const struct file *f, uint32_t n, struct bench *b)
{
	blank(b);
	prepare(what, e, f, b);
	measure(what, e, f, n, b);
}

static int same(const char *what, const struct file *f, uint32_t n)
{
	static struct bench proved, c;
	make(what, &PROVED, f, n, &proved);
	make(what, &PLAIN, f, n, &c);
	return equal(what, &proved, &c);
}

/* What is left where each of N cycles, or a shift, was refused by the chart's number, or else by 20 for its index. */
static void refuse(const char *what, const struct file *f, uint32_t n, struct bench *b)
{
	blank(b);
	prepare(what, &PLAIN, f, b);
	enum tw_code code = c_test(&b->chart), number = code ? code : TW_OTHER_INDEX;
	if (!strcmp(what, "shift-by")) {
		b->sum += number;
		b->shifted = 0;
	} else if (n > 0) {
		b->sum += (uint64_t)n * number;
		b->taken = 0;
		memset(b->reasons, 0, sizeof b->reasons);
	}
}

/* Whether the index is built of the chart as it is altered. */
static int is_fresh(void)
{
	return !index_first || !chart_by;
}

/* Cycles or a shift with an index and without one: by both engines the same, and with an exact index the same as without. An exact index of which a bit
   is altered is refused. */
static int same_by(const char *without, const char *by, const struct file *f, uint32_t n)
{
	static struct bench proved, c, other;
	make(without, &PROVED, f, n, &proved);
	make(without, &PLAIN, f, n, &c);
	if (!equal(without, &proved, &c))
		return 0;
	make(by, &PROVED, f, n, &proved);
	make(by, &PLAIN, f, n, &other);
	if (!equal(by, &proved, &other))
		return 0;
	if (!is_fresh())
		return 1;
	if (index_by)
		refuse(by, f, n, &c);
	return equal(index_by ? "refusals of an index" : "those with and without an index", &proved, &c);
}

static int compare(uint32_t count)
{
	static struct file f;
	static struct tw_chart chart;
	uint32_t accepted = 0, second = 0, altered = 0;
	size_t place;
	for (uint32_t k = 0; k < count; k++) {
		f.size = 0;
		random_chart(&f);
		if (k % 50 == 0)
			some_inputs((uint32_t)any_word(), 1, BEFORE + ROOM);
		chart_at = any(8) ? any(sizeof (struct tw_chart)) : offsetof(struct tw_chart, edition);
		run_at = any(4) ? any(sizeof (struct tw_run)) : offsetof(struct tw_run, hold);
		/* by 3 an edition becomes the other one */
		chart_by = any(8) ? 0 : any(8) ? (uint8_t)(1u << any(8)) : 3;
		run_by = any(8) ? 0 : (uint8_t)(1u << any(8));
		index_first = any(4) == 0;
		index_at = any(sizeof (struct tw_index));
		index_by = any(8) ? 0 : (uint8_t)(1u << any(8));
		/* an accepted chart's file is as long as it was */
		lent = any(2) ? any(8193) : f.size - (f.size != 0 && any(2));
		uint32_t n = any(8) ? any(60) : ROOM + any(2);
		for (int i = 0; i < 3; i++)
			cut[i] = any(20) ? 0 : any(n + 1);
		held_first = any(4) == 0;
		some_stretches(is_fresh() && !index_by);
		some_weights(any(2) == 0);
		for (int i = 0; i < 3; i++)
			more[i] = any(12) ? 0 : any(2) ? any(WEIGHTS + 1) : any(2) ? 1 : WEIGHTS;
		/* all of one length, mostly not the chart's */
		if (any(12) == 0)
			more[1] = more[2] = more[0] = any(WEIGHTS + 1);
		if (!same_by("cycles", "cycles-by", &f, any(60)) || !same_by("shift", "shift-by", &f, n) || !same("turned", &f, any(200))
			|| !same("reads", &f, 1 + any(2)) || !same("tests", &f, any(3)) || !same("writes", &f, 1 + any(2))
			|| !same("adding", &f, 1)) {
			printf("chart %u\n", k);
			return 1;
		}
		accepted += c_read(f.bytes, f.size, &chart, &place) == TW_ACCEPTED;
		second += chart.edition == 2;
		altered += chart.edition != 0 && index_by != 0;
	}
	printf("%u charts, %u of them accepted, %u of these in edition 2: all answers equal, with an index and without; %u with a bit of it "
		"altered; of one addition on each %u accepted, %u refused by 13 and %u by 21\n",
		count, accepted, second, altered, added, uneven, too_large);
	return 0;
}

/* One run goes on and on, singly and in shifts, with an index and without, and the key is turned between; every other thousand of its cycles has jumps. */
static int soak(uint32_t charts, uint32_t thousands)
{
	static struct file f;
	static struct bench proved, c;
	static const char *const named[] = { "small", "typical", "full", "waiting", "crowded", "sparse", "small-2", "typical-2", "full-2",
		"waiting-2", "crowded-2", "sparse-2" };
	uint64_t accepted = 0, under_hold = 0, second = 0;
	for (uint32_t k = 0; k < charts; k++) {
		if (k < sizeof named / sizeof *named)
			chart_of(named[k], &f);
		else
			do {
				f.size = 0;
				random_chart(&f);
			} while (c_read(f.bytes, f.size, &c.chart, &c.place) != TW_ACCEPTED);
		blank(&proved);
		blank(&c);
		clocks[0] = (uint32_t)any_word();
		read_and_start(&PROVED, &f, &proved);
		read_and_start(&PLAIN, &f, &c);
		int same_yet = equal("starts", &proved, &c);
		for (uint32_t t = 0; t < thousands && same_yet; t++) {
			some_inputs(proved.run.clock, t % 2, BEFORE + ROOM);
			some_stretches(1);
			make_stretches(&PROVED, 1000, &proved);
			make_stretches(&PLAIN, 1000, &c);
			same_yet = equal("soaks", &proved, &c);
		}
		if (!same_yet) {
			printf("chart %u\n", k);
			return 1;
		}
		accepted += proved.accepted;
		under_hold += proved.held;
		second += proved.chart.edition == 2 ? proved.accepted : 0;
	}
	printf("%u charts, %u thousand cycles on each, %llu accepted in all, %llu of them under hold, %llu in edition 2, "
		"%llu with an index: after each thousand the same runs and outputs\n",
		charts, thousands, (unsigned long long)accepted, (unsigned long long)under_hold, (unsigned long long)second,
		(unsigned long long)indexed);
	return 0;
}

static double seconds(void)
{
	struct timespec t;
	clock_gettime(CLOCK_MONOTONIC, &t);
	return (double)t.tv_sec + 1e-9 * (double)t.tv_nsec;
}

/* The best of five, since other work on the machine only adds. */
static double time_of(const char *what, const struct engine *e, const struct file *f, uint32_t n)
{
	static struct bench b;
	double best = 1e9;
	for (int i = 0; i < 5; i++) {
		blank(&b);
		prepare(what, e, f, &b);
		double began = seconds();
		measure(what, e, f, n, &b);
		double took = seconds() - began;
		if (took < best)
			best = took;
	}
	return best;
}

int main(int argc, char **argv)
{
	static struct file f;
	if (argc == 4 && !strcmp(argv[1], "compare")) {
		state = strtoull(argv[2], NULL, 10);
		return compare((uint32_t)strtoul(argv[3], NULL, 10));
	}
	if (argc == 5 && !strcmp(argv[1], "soak")) {
		state = strtoull(argv[2], NULL, 10);
		return soak((uint32_t)strtoul(argv[3], NULL, 10), (uint32_t)strtoul(argv[4], NULL, 10));
	}
	if (argc == 5 && !strcmp(argv[1], "time")) {
		static const char *const what[] = { "cycles", "cycles-by", "shift", "shift-by", "held-cycles", "held-shift", "index", "adding", "reads",
			"tests", "writes" };
		uint32_t n = (uint32_t)strtoul(argv[4], NULL, 10);
		state = strtoull(argv[3], NULL, 10);
		chart_of(argv[2], &f);
		some_inputs((uint32_t)any_word(), 0, BEFORE + (n > COUNTED ? ROOM : COUNTED));
		some_weights(0);
		for (size_t i = 0; i < sizeof what / sizeof *what; i++) {
			double proved = time_of(what[i], &PROVED, &f, n), c = time_of(what[i], &PLAIN, &f, n);
			printf("%s %.1f %.1f %.2f\n", what[i], 1e9 * proved / n, 1e9 * c / n, proved / c);
		}
		return 0;
	}
	if (argc == 6) {
		static struct bench b;
		uint32_t n = (uint32_t)strtoul(argv[5], NULL, 10);
		state = strtoull(argv[4], NULL, 10);
		chart_of(argv[2], &f);
		some_inputs((uint32_t)any_word(), 0, BEFORE + (n > COUNTED ? ROOM : COUNTED));
		if (!strcmp(argv[1], "turned"))
			some_stretches(1);
		if (!strcmp(argv[1], "adding"))
			some_weights(0);
		if (!strcmp(argv[3], "both")) {
			if (is_by(argv[1]))
				return !same_by(!strcmp(argv[1], "cycles-by") ? "cycles" : "shift", argv[1], &f, n);
			return !same(argv[1], &f, n);
		}
		const struct engine *e = strcmp(argv[3], "proved") ? &PLAIN : &PROVED;
		blank(&b);
		prepare(argv[1], e, &f, &b);
		measure(argv[1], e, &f, n, &b);
		printf("%llu\n", (unsigned long long)b.sum);
		return 0;
	}
	fprintf(stderr, "usage: see the head of main.c\n");
	return 2;
}
