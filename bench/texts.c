/* Reads the same texts by the library and by the plain C reader (text.c).

     texts compare SEED COUNT          COUNT texts, most of them with a byte replaced, left out or put in, or cut: every answer and the chart equal, or exit 1
     texts reads   TEXT ENGINE SEED N  N readings of small, typical or full, by the engine proved or c
     texts bytes   TEXT SEED           how many bytes the text has
     texts time    TEXT SEED N         nanoseconds of both for one of N readings, the best of five, and their ratio

   Texts are made at run time from the seed, in the usual layout: a step or a transition per paragraph, one blank between words, and an association on a
   line of its own. */
#include "engine.h"

#include <stdio.h>
#include <stdlib.h>
#include <string.h>
#include <time.h>

struct text {
	uint8_t bytes[32768];
	size_t size;
};

static uint64_t state;

static uint32_t any(uint32_t below)
{
	state = state * UINT64_C(6364136223846793005) + UINT64_C(1442695040888963407);
	return (uint32_t)(state >> 33) % below;
}

#define BIT(k) (UINT64_C(1) << (k))

static void say(struct text *t, const char *words)
{
	size_t n = strlen(words);
	memcpy(t->bytes + t->size, words, n);
	t->size += n;
}

static void say_number(struct text *t, const char *words, unsigned n)
{
	char digits[16];
	snprintf(digits, sizeof digits, "%u", n);
	say(t, words);
	say(t, digits);
}

static void say_step(struct text *t, unsigned k, int initial)
{
	say_number(t, initial ? "INITIAL_STEP S" : "STEP S", k);
	say(t, ":");
}

static void end_step(struct text *t)
{
	say(t, "\nEND_STEP\n\n");
}

/* The last is N by another writing. */
static const char *const UNTIMED[] = { "N", "R", "S", "P", "P1", "P0", "" };
static const char *const TIMED[] = { "L", "D", "SD", "DS", "SL" };

static void say_untimed(struct text *t, unsigned action, unsigned q)
{
	say_number(t, "\n  A", action);
	say(t, "(");
	say(t, UNTIMED[q]);
	say(t, ");");
}

static void say_timed(struct text *t, unsigned action, unsigned q, uint32_t ms)
{
	say_number(t, "\n  A", action);
	say(t, "(");
	say(t, TIMED[q]);
	say_number(t, ",T#", ms);
	say(t, "ms);");
}

/* The steps with so many blocks in each. Every `apart` blocks one is timed, the next action's, with one to `digits` digits by turns; of the others the
   first seven have every qualifier. */
static void some_steps(struct text *t, unsigned n, uint64_t initial, unsigned actions, unsigned blocks, unsigned apart, unsigned digits)
{
	static const uint32_t powers[] = { 0, 10, 100, 1000, 10000, 100000, 1000000, 10000000, TW_LONGEST + 1 };
	unsigned untimed = 0;
	for (unsigned i = 0, k = 0; k < n; k++) {
		say_step(t, k, initial >> k & 1);
		for (; i < blocks * (k + 1) / n; i++) {
			unsigned action = i / apart, length = action % digits;
			if (i % apart == 0 && action < actions)
				say_timed(t, action, action % 5, powers[length] + any(powers[length + 1] - powers[length]));
			else
				say_untimed(t, any(actions), untimed < 7 ? untimed++ : any(7));
		}
		end_step(t);
	}
}

/* So many of the steps that are not used yet. */
static void say_steps(struct text *t, unsigned n, unsigned steps, uint64_t *used)
{
	if (n > 1)
		say(t, "(");
	for (unsigned i = 0; i < n; i++) {
		unsigned k;
		do
			k = any(steps);
		while (*used >> k & 1);
		*used |= BIT(k);
		say_number(t, i ? ",S" : "S", k);
	}
	if (n > 1)
		say(t, ")");
}

/* So many inputs, no two the same, by halves after NOT. */
static void say_condition(struct text *t, unsigned n)
{
	unsigned inputs[32];
	for (unsigned i = 0; i < 32; i++)
		inputs[i] = i;
	say(t, n ? " := " : " := TRUE");
	for (unsigned i = 0; i < n; i++) {
		unsigned k = i + any(32 - i), one = inputs[k];
		inputs[k] = inputs[i];
		if (i)
			say(t, " AND ");
		say_number(t, any(2) ? "NOT X" : "X", one);
	}
	say(t, ";\nEND_TRANSITION\n\n");
}

static void say_transition(struct text *t, unsigned source, unsigned target, unsigned inputs)
{
	say_number(t, "TRANSITION FROM S", source);
	say_number(t, " TO S", target);
	say_condition(t, inputs);
}

static void say_lists(struct text *t, unsigned sources, unsigned targets, unsigned steps, unsigned inputs)
{
	uint64_t used = 0;
	say(t, "TRANSITION FROM ");
	say_steps(t, sources, steps, &used);
	say(t, " TO ");
	say_steps(t, targets, steps, &used);
	say_condition(t, inputs);
}

/* A ring of four steps. */
static void small_text(struct text *t)
{
	t->size = 0;
	some_steps(t, 4, 1, 4, 8, 2, 3);
	for (unsigned i = 0; i < 4; i++)
		say_transition(t, i, (i + 1) % 4, 1);
}

/* Twelve steps: a ring, a fork, a join and two leaps. */
static void typical_text(struct text *t)
{
	t->size = 0;
	some_steps(t, 12, BIT(0) | BIT(6), 12, 40, 3, 5);
	for (unsigned i = 0; i < 12; i++)
		say_transition(t, i, (i + 1) % 12, any(4));
	say_lists(t, 1, 2, 12, 2);
	say_lists(t, 2, 1, 12, 1);
	say_transition(t, 8, 10, 1);
	say_transition(t, 10, 1, 2);
}

/* A text of every limit. Conditions have 0 to 32 inputs by turns, and two in three transitions lists of sources, two in three of targets. */
static void full_text(struct text *t)
{
	t->size = 0;
	some_steps(t, 64, UINT64_C(0x5555555555555555), 32, 256, 8, 8);
	for (unsigned i = 0; i < 64; i++) {
		unsigned sources = any(3) ? 2 + any(5) : 1, targets = any(3) ? 2 + any(5) : 1;
		say_lists(t, sources, targets, 64, i % 33);
	}
}

/* A byte that texts have, mostly one of this text. */
static uint8_t some_byte(const struct text *t)
{
	return any(8) ? t->bytes[any((uint32_t)t->size)] : (uint8_t)any(256);
}

static int is_digit(uint8_t b)
{
	return b >= '0' && b <= '9';
}

/* One of these with a byte replaced, cut or inserted, or cut short; where a digit is replaced by another, it is often a text still. */
static void damaged_text(struct text *t)
{
	static void (*const made[])(struct text *) = { small_text, typical_text, full_text };
	made[any(3)](t);
	uint8_t b = some_byte(t);
	size_t at = any((uint32_t)t->size), rest = t->size - at;
	switch (any(5)) {
	case 0:
		while (!is_digit(t->bytes[at]))
			at = (at + 1) % t->size;
		t->bytes[at] = (uint8_t)('0' + any(10));
		break;
	case 4:
		t->bytes[at] = b;
		break;
	case 1:
		memmove(t->bytes + at, t->bytes + at + 1, rest - 1);
		t->size--;
		break;
	case 2:
		memmove(t->bytes + at + 1, t->bytes + at, rest);
		t->bytes[at] = b;
		t->size++;
		break;
	default:
		t->size = at;
	}
}

/* One more block or transition than there may be, or a fault of the chart: what one byte seldom makes of a text. */
static void faulty_text(struct text *t)
{
	switch (any(4)) {
	case 0:
		full_text(t);
		say_transition(t, 0, 1, 1);
		break;
	case 1:
		t->size = 0;
		some_steps(t, 64, 1, 32, 257, 16, 8);
		break;
	case 2:
		small_text(t);
		say_transition(t, any(4), any(64), 1);
		break;
	default:
		t->size = 0;
		say_step(t, 0, 1);
		say_timed(t, 0, any(5), any(TW_LONGEST * 2u));
		say_timed(t, any(2), any(5), any(1000));
		end_step(t);
	}
}

typedef enum tw_code reads(const uint8_t *, size_t, struct tw_chart *, size_t *);

static int compare(uint32_t count)
{
	static struct text t;
	static struct tw_chart proved, c;
	static uint32_t codes[26];
	for (uint32_t i = 0; i < count; i++) {
		size_t at = any(1000), by = any(1000);
		(any(4) ? damaged_text : faulty_text)(&t);
		memset(&proved, 0x5a, sizeof proved);
		memset(&c, 0, sizeof c);
		enum tw_code code = tw_read_text(t.bytes, t.size, &proved, &at);
		if (code != c_read_text(t.bytes, t.size, &c, &by) || at != by || memcmp(&proved, &c, offsetof(struct tw_chart, edition) + 1)) {
			printf("text %u differs: %d at %zu, C at %zu\n", i, code, at, by);
			return 1;
		}
		codes[code]++;
	}
	printf("%u texts:", count);
	for (unsigned k = 0; k < 26; k++)
		if (codes[k])
			printf(" %u of %u,", codes[k], k);
	puts(" the same answers and charts");
	return 0;
}

static void make(const char *name, struct text *t)
{
	(strcmp(name, "small") ? strcmp(name, "typical") ? full_text : typical_text : small_text)(t);
}

static struct tw_chart chart;

static void read_often(reads *by, const struct text *t, uint32_t n)
{
	size_t place;
	while (n--)
		if (by(t->bytes, t->size, &chart, &place))
			exit(1);
}

static double nanoseconds(reads *by, const struct text *t, uint32_t n)
{
	double best = 0;
	for (int i = 0; i < 5; i++) {
		struct timespec from, to;
		clock_gettime(CLOCK_MONOTONIC, &from);
		read_often(by, t, n);
		clock_gettime(CLOCK_MONOTONIC, &to);
		double took = ((double)(to.tv_sec - from.tv_sec) * 1e9 + (double)(to.tv_nsec - from.tv_nsec)) / n;
		if (!i || took < best)
			best = took;
	}
	return best;
}

int main(int argc, char **argv)
{
	static struct text t;
	if (argc == 4 && !strcmp(argv[1], "compare")) {
		state = strtoull(argv[2], NULL, 10);
		return compare((uint32_t)atoi(argv[3]));
	}
	if (argc == 6 && !strcmp(argv[1], "reads")) {
		state = strtoull(argv[4], NULL, 10);
		make(argv[2], &t);
		read_often(strcmp(argv[3], "c") ? tw_read_text : c_read_text, &t, (uint32_t)atoi(argv[5]));
		return 0;
	}
	if (argc == 4 && !strcmp(argv[1], "bytes")) {
		state = strtoull(argv[3], NULL, 10);
		make(argv[2], &t);
		printf("%zu\n", t.size);
		return 0;
	}
	if (argc == 5 && !strcmp(argv[1], "time")) {
		state = strtoull(argv[3], NULL, 10);
		make(argv[2], &t);
		double proved = nanoseconds(tw_read_text, &t, (uint32_t)atoi(argv[4])), c = nanoseconds(c_read_text, &t, (uint32_t)atoi(argv[4]));
		printf("%.0f %.0f %.2f\n", proved, c, proved / c);
		return 0;
	}
	return 2;
}
