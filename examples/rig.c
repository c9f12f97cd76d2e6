/* What a rig computer does with the library: it reads a chart file, builds its index, starts, makes cycles and a shift, turns the key, and reports.

     gcc -o rig rig.c $(pkg-config --cflags --libs tolwaziho) && ./rig chart.bin

   The clocks and inputs are those of document 01's chart A; rig.out is what it prints then. Some calls are wrong, to show what a refusal leaves. */
#include <inttypes.h>
#include <stdio.h>
#include <tolwaziho.h>

static uint8_t file[65536];	/* of a longer file, which is no chart anyway, the first bytes decide */
static struct tw_chart chart;
static struct tw_index chart_index;
static struct tw_run run;
static int32_t outputs[TW_OUTPUTS];

/* Whether a call was accepted; if not, says why. */
static int accepted(const char *call, enum tw_code code)
{
	if (code == TW_ACCEPTED)
		return 1;
	printf("%s: refused %d, %s\n", call, code, tw_name(code));
	return 0;
}

static void print_state(void)
{
	printf("  at %" PRIu32 " ms, active steps:", run.clock);
	for (int k = 0; k < TW_STEPS; k++)
		if (run.active >> k & 1)
			printf(" %d", k);
	for (int k = 0; k < TW_OUTPUTS; k++)
		if (outputs[k] != 0)
			printf("; output %d is %" PRId32, k, outputs[k]);
	printf("%s\n", run.hold ? "; held" : "");
}

static void cycle(uint32_t clock, uint32_t inputs)
{
	uint64_t taken;
	uint8_t reasons[TW_TRANSITIONS];
	if (accepted("cycle", tw_cycle(&chart, &run, clock, inputs, outputs, TW_OUTPUTS, &taken, reasons))) {
		printf("cycle: transitions taken 0x%" PRIx64 "\n", taken);
		for (size_t t = 0; taken == 0 && t < chart.transitions; t++)
			printf("  transition %zu waits: %s\n", t, tw_why((enum tw_reason)reasons[t]));
	}
	print_state();
}

int main(int argc, char **argv)
{
	if (argc != 2) {
		fprintf(stderr, "usage: rig CHART-FILE\n");
		return 2;
	}
	FILE *f = fopen(argv[1], "rb");
	if (f == NULL) {
		perror(argv[1]);
		return 1;
	}
	size_t size = fread(file, 1, sizeof file, f), place;
	fclose(f);
	if (!accepted("read", tw_read(file, size, &chart, &place))) {
		printf("  at byte %zu\n", place);
		return 1;
	}
	printf("read: %zu steps, %zu actions, %zu transitions\n", chart.steps, chart.actions, chart.transitions);

	/* once, for all shifts with this chart: each then looks only at transitions that leave an active step */
	if (accepted("index", tw_index(&chart, &chart_index))) {
		printf("index: transitions that leave each step:");
		for (size_t k = 0; k < chart.steps; k++)
			printf(" 0x%" PRIx64, chart_index.leaving[k]);
		printf("\n");
	}

	if (accepted("start", tw_start(&chart, &run, 1000, outputs, TW_OUTPUTS)))
		print_state();
	cycle(1010, 1);
	cycle(70000, 2);	/* more than a minute later: refused, and the run is as it was */
	cycle(1509, 2);		/* a millisecond before the wait is over */
	cycle(1510, 2);

	/* four cycles at once; the clock of the last goes back */
	const uint32_t clocks[] = { 1520, 1600, 2020, 2019 }, inputs[] = { 1, 0, 2, 0 };
	uint64_t activities[4];
	size_t made;
	accepted("shift", tw_shift_by(&chart, &chart_index, &run, clocks, 4, inputs, 4, activities, 4, outputs, TW_OUTPUTS, &made));
	printf("shift: %zu of 4 cycles made, active actions:", made);
	for (size_t k = 0; k < made; k++)
		printf(" 0x%" PRIx64, activities[k]);
	printf("\n");
	print_state();

	/* somebody is in the cell, and the key is turned: step 1 stays, and of its wait nothing goes by until the key is turned back */
	cycle(2100, 1);
	if (accepted("hold", tw_hold(&chart, &run)))
		print_state();
	cycle(2700, 2);
	if (accepted("release", tw_release(&chart, &run)))
		print_state();
	cycle(3199, 2);
	cycle(3200, 2);

	struct tw_tallied tallied;
	if (accepted("tally", tw_tally(&chart, &run, &tallied)))
		printf("tally: passed %zu, failed %zu, not run %zu\n", tallied.passed, tallied.failed, tallied.notrun);

	/* a chart that is altered where it is held: the index is that of another chart then, and at last it is no chart */
	chart.transitions = 1;
	accepted("shift", tw_shift_by(&chart, &chart_index, &run, clocks, 4, inputs, 4, activities, 4, outputs, TW_OUTPUTS, &made));
	chart.output[0] = TW_OUTPUTS;
	accepted("test", tw_test(&chart));
	return 0;
}
