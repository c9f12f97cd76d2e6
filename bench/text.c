/* Charts as text, docs/GRAMMAR.md: a function for each production, straight over the bytes. Each answers whether it found what it reads; if not, the
   reader is left at the byte that no text can continue through, or at the end. */
#include "engine.h"

#include <string.h>

#define BIT(k) (UINT64_C(1) << (k))

/* Qualifiers L, D, SD, DS and SL, as bits. */
#define TIMED (1u << TW_L | 1u << TW_D | 1u << TW_SD | 1u << TW_DS | 1u << TW_SL)

/* `odd` is the first step name that is not its step's number. What is beyond a limit is counted in the chart, and not kept. */
struct reader {
	const uint8_t *at, *end, *odd;
	struct tw_chart *chart;
};

/* The next byte; -1 at the end. */
static inline int peek(const struct reader *r)
{
	return r->at < r->end ? *r->at : -1;
}

static inline int byte(struct reader *r, uint8_t b)
{
	if (r->at == r->end || *r->at != b)
		return 0;
	r->at++;
	return 1;
}

/* Most bytes are above a blank. */
static inline int is_blank(uint8_t b)
{
	return b <= ' ' && (b == ' ' || (b >= '\t' && b <= '\r'));
}

/* Any blanks; whether there were some. */
static inline int blanks(struct reader *r)
{
	const uint8_t *from = r->at;
	while (r->at < r->end && is_blank(*r->at))
		r->at++;
	return r->at != from;
}

static inline int sign(struct reader *r, uint8_t b)
{
	blanks(r);
	return byte(r, b);
}

/* A keyword; only where it is not there, byte by byte for the place. */
static inline int word(struct reader *r, const char *w)
{
	size_t n = strlen(w);
	if ((size_t)(r->end - r->at) >= n && !memcmp(r->at, w, n)) {
		r->at += n;
		return 1;
	}
	while (peek(r) == *w)
		r->at++, w++;
	return 0;
}

static inline int is_digit(int b)
{
	return b >= '0' && b <= '9';
}

/* A name's number, or -1. A digit that does not belong to it stays, and whatever is read behind a name stops there. */
static inline int name(struct reader *r, uint8_t letter, int most)
{
	if (!byte(r, letter) || !is_digit(peek(r)))
		return -1;
	int n = *r->at++ - '0';
	if (n == 0 || !is_digit(peek(r)))
		return n;
	int two = 10 * n + *r->at - '0';
	if (two > most)
		return n;
	r->at++;
	return two;
}

/* Once it is above the limit a duration stays as it is. */
static inline int duration(struct reader *r, uint32_t *ms)
{
	if (!byte(r, 'T') || (peek(r) == 'I' && !word(r, "IME")) || !byte(r, '#') || !is_digit(peek(r)))
		return 0;
	uint32_t n = *r->at++ - '0';
	if (n)
		for (; is_digit(peek(r)); r->at++)
			if (n <= TW_LONGEST)
				n = 10 * n + (*r->at - '0');
	*ms = n;
	return (byte(r, 'm') || byte(r, 'M')) && (byte(r, 's') || byte(r, 'S'));
}

/* A qualifier, N before a bracket, or -1. */
static inline int qualifier(struct reader *r)
{
	switch (peek(r)) {
	case ')': return TW_N;
	case 'N': r->at++; return TW_N;
	case 'R': r->at++; return TW_R;
	case 'L': r->at++; return TW_L;
	case 'D': r->at++; return byte(r, 'S') ? TW_DS : TW_D;
	case 'S': r->at++; return byte(r, 'D') ? TW_SD : byte(r, 'L') ? TW_SL : TW_S;
	case 'P': r->at++; return byte(r, '1') ? TW_P1 : byte(r, '0') ? TW_P0 : TW_P;
	default: return -1;
	}
}

/* An association and its semicolon, in the step that was counted last. */
static inline int block(struct reader *r)
{
	struct tw_chart *c = r->chart;
	uint32_t ms = 0;
	int action = name(r, 'A', TW_ACTIONS - 1);
	if (action < 0 || !sign(r, '('))
		return 0;
	blanks(r);
	int q = qualifier(r);
	if (q < 0)
		return 0;
	if (TIMED >> q & 1) {
		if (!sign(r, ','))
			return 0;
		blanks(r);
		if (!duration(r, &ms))
			return 0;
	}
	if (!sign(r, ')') || !sign(r, ';'))
		return 0;
	size_t i = c->blocks++;
	if (i < TW_BLOCKS) {
		c->blockstep[i] = (uint8_t)(c->steps - 1);
		c->blockaction[i] = (uint8_t)action;
		c->qualifier[i] = (uint8_t)q;
		c->duration[i] = ms;
	}
	if ((size_t)action >= c->actions)
		c->actions = (size_t)action + 1;
	return 1;
}

static inline int step(struct reader *r)
{
	struct tw_chart *c = r->chart;
	size_t i = c->steps;
	int initial = i == 0 || peek(r) == 'I';
	if (!(initial ? word(r, "INITIAL_STEP") : word(r, "STEP")) || !blanks(r))
		return 0;
	const uint8_t *own = r->at;
	int k = name(r, 'S', TW_STEPS - 1);
	if (k < 0 || !sign(r, ':'))
		return 0;
	if ((size_t)k != i && !r->odd)
		r->odd = own;
	if (i < TW_STEPS)
		c->initial[i] = (uint8_t)initial;
	c->steps = i + 1;
	while (blanks(r), peek(r) == 'A')
		if (!block(r))
			return 0;
	return word(r, "END_STEP");
}

static inline int list(struct reader *r, uint64_t *set)
{
	int n = 0;
	do {
		r->at++;
		blanks(r);
		int k = name(r, 'S', TW_STEPS - 1);
		if (k < 0)
			return 0;
		*set |= BIT(k);
		n++;
		blanks(r);
	} while (peek(r) == ',');
	return n > 1 && byte(r, ')');
}

/* The steps behind FROM or TO: a name after a blank, or a list in brackets. */
static inline int steps(struct reader *r, uint64_t *set)
{
	int apart = blanks(r);
	if (peek(r) == '(')
		return list(r, set);
	int k = apart ? name(r, 'S', TW_STEPS - 1) : -1;
	if (k < 0)
		return 0;
	*set = BIT(k);
	return 1;
}

static inline int input(struct reader *r, uint64_t *on, uint64_t *off)
{
	int not = peek(r) == 'N';
	if (not && (!word(r, "NOT") || !blanks(r)))
		return 0;
	int k = name(r, 'X', 31);
	if (k < 0)
		return 0;
	if (not)
		*off |= BIT(k);
	else
		*on |= BIT(k);
	return 1;
}

/* A condition and its semicolon. */
static inline int condition(struct reader *r, uint64_t *on, uint64_t *off)
{
	blanks(r);
	if (peek(r) == 'T')
		return word(r, "TRUE") && sign(r, ';');
	while (input(r, on, off)) {
		int apart = blanks(r);
		if (byte(r, ';'))
			return 1;
		if (!apart || !word(r, "AND") || !blanks(r))
			return 0;
	}
	return 0;
}

static inline int transition(struct reader *r)
{
	struct tw_chart *c = r->chart;
	uint64_t sources = 0, targets = 0, on = 0, off = 0;
	if (!word(r, "TRANSITION") || !blanks(r) || !word(r, "FROM") || !steps(r, &sources))
		return 0;
	int bracket = r->at[-1] == ')';
	if ((!blanks(r) && !bracket) || !word(r, "TO") || !steps(r, &targets))
		return 0;
	if (!sign(r, ':') || !byte(r, '=') || !condition(r, &on, &off))
		return 0;
	blanks(r);
	size_t i = c->transitions++;
	if (i < TW_TRANSITIONS) {
		c->sources[i] = sources;
		c->targets[i] = targets;
		c->on[i] = on;
		c->off[i] = off;
	}
	return word(r, "END_TRANSITION");
}

/* Whether a further step or transition must begin here: blanks, and more than blanks. */
static inline int goes_on(struct reader *r)
{
	return blanks(r) && r->at < r->end;
}

static inline int text(struct reader *r)
{
	int more;
	blanks(r);
	do {
		if (!step(r))
			return 0;
		more = goes_on(r);
	} while (more && *r->at != 'T');
	while (more) {
		if (!transition(r))
			return 0;
		more = goes_on(r);
	}
	return r->at == r->end;
}

static enum tw_code read_chart(const uint8_t *bytes, size_t size, struct tw_chart *chart, size_t *place)
{
	struct reader r = { bytes, bytes + size, NULL, chart };
	if (!text(&r)) {
		*place = (size_t)(r.at - bytes);
		return TW_NO_TEXT;
	}
	if (r.odd) {
		*place = (size_t)(r.odd - bytes);
		return TW_OUT_OF_ORDER;
	}
	for (size_t k = 0; k < chart->actions; k++) {
		chart->output[k] = (uint8_t)k;
		chart->value[k] = 1;
	}
	chart->edition = 1;
	/* More transitions or blocks than there is room for are 4, before all else. */
	return c_test(chart);
}

enum tw_code c_read_text(const uint8_t *bytes, size_t size, struct tw_chart *chart, size_t *place)
{
	memset(chart, 0, sizeof *chart);
	*place = 0;
	enum tw_code code = read_chart(bytes, size, chart, place);
	if (code)
		memset(chart, 0, sizeof *chart);
	return code;
}
