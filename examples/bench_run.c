/* The printed run of document 01 over the library: the chart in chart.bin, the trace on standard input. It writes what the proved program bench_run
   writes, byte for byte. */
#include <inttypes.h>
#include <stdio.h>
#include <tolwaziho.h>

/* Of either file so many bytes are read, and they decide. No record of a trace begins at TOO_FAR or later. */
enum { MOST = 65536, TOO_FAR = 65528, CYCLE = 16, START = 17 };

static uint8_t file[MOST], trace[MOST];
static struct tw_chart chart;
static struct tw_run run;
static int32_t outputs[TW_OUTPUTS];
static uint8_t reasons[TW_TRANSITIONS];

static uint32_t number_at(const uint8_t *b, int bytes)
{
	uint32_t n = 0;
	while (bytes-- > 0)
		n = n << 8 | b[bytes];
	return n;
}

/* Whether a whole record of this kind and body length stands at this place of the trace, which has so many bytes. */
static int stands(size_t size, size_t at, uint32_t kind, uint32_t length)
{
	return at < TOO_FAR && size - at >= 4 + length && number_at(trace + at, 2) == length && number_at(trace + at + 2, 2) == kind;
}

/* Of a cycle that took nothing: why each transition waits, a digit for each. */
static void print_reasons(void)
{
	for (size_t t = 0; t < chart.transitions; t++)
		putchar('0' + reasons[t]);
	putchar('\n');
}

int main(void)
{
	/* a file that can't be opened counts as empty */
	FILE *f = fopen("chart.bin", "rb");
	size_t size = f ? fread(file, 1, MOST, f) : 0, place;
	if (f)
		fclose(f);
	enum tw_code code = tw_read(file, size, &chart, &place);
	if (code) {
		printf("refused chart %d\n", code);
		return 0;
	}
	size = fread(trace, 1, MOST, stdin);
	for (size_t at = 0, call = 0; at < size; call++) {
		uint32_t length = at == 0 ? 4 : 8;
		if (!stands(size, at, at == 0 ? START : CYCLE, length)) {
			printf("refused trace %d\n", TW_BAD_TRACE);
			return 0;
		}
		uint32_t clock = number_at(trace + at + 4, 4);
		uint64_t taken = 0;
		if (at == 0)
			code = tw_start(&chart, &run, clock, outputs, TW_OUTPUTS);
		else
			code = tw_cycle(&chart, &run, clock, number_at(trace + at + 8, 4), outputs, TW_OUTPUTS, &taken, reasons);
		if (code)
			printf("%zu refused %d\n", call, code);
		else
			printf("%zu %016" PRIx64 " %08" PRIx64 " %016" PRIx64 "\n", call, run.active, run.activity, taken);
		if (at > 0 && !code && !taken)
			print_reasons();
		/* an output that takes no more ends the run, quietly */
		if (ferror(stdout))
			return 0;
		at += 4 + length;
	}
	/* accepted, as the chart was and the run is one of it */
	struct tw_tallied tallied;
	tw_tally(&chart, &run, &tallied);
	printf("passed %zu failed %zu notrun %zu\n", tallied.passed, tallied.failed, tallied.notrun);
	return 0;
}
