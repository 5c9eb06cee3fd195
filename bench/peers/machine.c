/* machine IMAGE FRAME RUNS: what xlb's machine takes for a run of the program, and what accepting it takes.
 *
 * Prints `run NS accept NS`: nanoseconds of the thread's processor time, the least of nine. Decoding, verifying, opening shards and making the frame are
 * timed by a call that does all of that and no run, and subtracted. Links the library of crates/bench_ffi.
 */
#include <stdint.h>
#include <stdio.h>
#include <stdlib.h>
#include <time.h>

typedef struct {
	uint64_t verdict, steps, hash;
} Outcome;

uint8_t bench_ffi_verify(const uint8_t *image, size_t length, uint32_t times);
uint8_t bench_ffi_run(const uint8_t *, size_t, const uint8_t *, size_t, uint32_t times, uint32_t journal, Outcome *);
uint8_t bench_ffi_prepare(const uint8_t *, size_t, const uint8_t *, size_t, uint32_t times, uint32_t journal, Outcome *);

static double now(void)
{
	struct timespec t;
	clock_gettime(CLOCK_THREAD_CPUTIME_ID, &t);
	return t.tv_sec * 1e9 + t.tv_nsec;
}

static double lesser(double a, double b) { return a < b ? a : b; }

static uint8_t *contents(const char *path, size_t *length)
{
	FILE *file = fopen(path, "rb");
	if (!file) {
		perror(path);
		exit(2);
	}
	uint8_t *bytes = malloc(1 << 20);
	*length = fread(bytes, 1, 1 << 20, file);
	fclose(file);
	return bytes;
}

int main(int count, char **words)
{
	if (count != 4)
		return 2;
	size_t length, frame_length;
	uint8_t *image = contents(words[1], &length), *frame = contents(words[2], &frame_length);
	uint32_t runs = atoi(words[3]);
	Outcome outcome = {0};
	double all = 1e18, before = 1e18, accept = 1e18;
	for (int turn = 0; turn < 9; turn++) {
		double start = now();
		uint8_t fault = bench_ffi_run(image, length, frame, frame_length, runs, 1024, &outcome);
		all = lesser(all, now() - start);
		if (fault) {
			fprintf(stderr, "%s: fault %d\n", words[1], fault);
			return 1;
		}
		start = now();
		bench_ffi_prepare(image, length, frame, frame_length, runs, 1024, &outcome);
		before = lesser(before, now() - start);
		start = now();
		bench_ffi_verify(image, length, 20);
		accept = lesser(accept, (now() - start) / 20);
	}
	printf("run %.1f accept %.0f\n", (all - before) / runs, accept);
	return 0;
}
