/* dpdk IMAGE FRAME RUNS: what DPDK's librte_bpf takes for a run of a program without maps, in its interpreter and in what its JIT makes.
 *
 * Prints `interpreter NS jit NS`, the least of five. librte_bpf has no XDP context: r1 is the address of the frame, so the program loads no `data` and
 * `data_end` from it.
 */
#include <inttypes.h>
#include <rte_bpf.h>
#include <rte_errno.h>
#include <rte_log.h>
#include <stdint.h>
#include <stdio.h>
#include <stdlib.h>
#include <string.h>
#include <time.h>

static double now(void)
{
	struct timespec t;
	clock_gettime(CLOCK_MONOTONIC, &t);
	return t.tv_sec * 1e9 + t.tv_nsec;
}

static uint8_t *contents(const char *path, size_t *length)
{
	FILE *file = fopen(path, "rb");
	if (!file) {
		perror(path);
		exit(2);
	}
	uint8_t *bytes = calloc(1, 1 << 20);
	*length = fread(bytes, 1, 1 << 20, file);
	fclose(file);
	return bytes;
}

typedef uint64_t (*Run)(void *program, void *frame);

static uint64_t interpreted(void *program, void *frame) { return rte_bpf_exec(program, frame); }
static uint64_t compiled(void *program, void *frame) { return ((struct rte_bpf_jit *)program)->func(frame); }

static double least(Run run, void *program, void *frame, long runs)
{
	double best = 1e30;
	for (int turn = 0; turn < 5; turn++) {
		double start = now();
		for (long i = 0; i < runs; i++)
			run(program, frame);
		double time = (now() - start) / runs;
		if (time < best)
			best = time;
	}
	return best;
}

int main(int count, char **words)
{
	if (count != 4)
		return 2;
	size_t length, frame_length;
	uint8_t *image = contents(words[1], &length), *frame = contents(words[2], &frame_length);
	long runs = atol(words[3]);
	rte_log_set_global_level(RTE_LOG_ERR);
	/* an image without maps: a head of eight bytes, then slots */
	struct rte_bpf_prm given = {
		.ins = (void *)(image + 8),
		.nb_ins = (length - 8) / 8,
		.prog_arg = {.type = RTE_BPF_ARG_PTR, .size = 8192},
	};
	struct rte_bpf *program = rte_bpf_load(&given);
	if (!program) {
		fprintf(stderr, "%s: rte_bpf_load: %s\n", words[1], rte_strerror(rte_errno));
		return 1;
	}
	printf("interpreter %.2f", least(interpreted, program, frame, runs));
	struct rte_bpf_jit jit;
	if (rte_bpf_get_jit(program, &jit) == 0 && jit.func)
		printf(" jit %.2f", least(compiled, &jit, frame, 4 * runs));
	printf("\n");
	rte_bpf_destroy(program);
	return 0;
}
