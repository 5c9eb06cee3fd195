/* This machine's kernel on a program, by bpf(2). Nothing is attached to a device. Needs the rights of root.
 *
 * kernel IMAGE FRAME RUNS: what a run takes (BPF_PROG_TEST_RUN of an XDP program), and accepting it (BPF_PROG_LOAD with verifier and JIT; the maps are made
 * before). Prints `run NS accept NS`; accepting is the least of twenty.
 *
 * kernel --replay IMAGE UPDATES CAPTURE SENT: hands each record of the capture to the kernel, one BPF_PROG_TEST_RUN each, and writes what is transmitted as a
 * capture. UPDATES has a line `<map> <key> <value>` (hexadecimal digits) for each update of the maps before the first record. Prints the verdicts' counts,
 * and the seconds of processor time from before CAPTURE is opened until SENT is written.
 */
#define _GNU_SOURCE
#include <errno.h>
#include <linux/bpf.h>
#include <stdint.h>
#include <stdio.h>
#include <stdlib.h>
#include <string.h>
#include <sys/syscall.h>
#include <time.h>
#include <unistd.h>

enum { MAPS = 16, LONGEST = 2048, ROOM = 512, PIECE = 1 << 20 };

static long bpf(int command, union bpf_attr *given) { return syscall(SYS_bpf, command, given, sizeof *given); }

static uint32_t word(const uint8_t *bytes)
{
	uint32_t value;
	memcpy(&value, bytes, 4);
	return value;
}

static uint8_t *contents(const char *path, size_t *length)
{
	FILE *file = fopen(path, "rb");
	if (!file) {
		perror(path);
		exit(2);
	}
	uint8_t *bytes = malloc(1 << 20);
	*length = fread(bytes, 1, 1 << 20, file);
	fclose(file);
	return bytes;
}

static int made_map(const uint8_t *row)
{
	union bpf_attr given;
	memset(&given, 0, sizeof given);
	given.map_type = word(row);
	given.key_size = word(row + 4);
	given.value_size = word(row + 8);
	given.max_entries = word(row + 12);
	return bpf(BPF_MAP_CREATE, &given);
}

/* The slots behind the head and the rows of the maps, with the maps' descriptors in the loads of maps. */
static struct bpf_insn *slots(const uint8_t *code, size_t count, const int *maps)
{
	struct bpf_insn *made = malloc(count * sizeof *made);
	memcpy(made, code, count * sizeof *made);
	for (size_t at = 0; at < count; at++)
		if (made[at].code == 0x18) {
			if (made[at].src_reg == 1)
				made[at].imm = maps[made[at].imm];
			at++;
		}
	return made;
}

static double now(void)
{
	struct timespec t;
	clock_gettime(CLOCK_MONOTONIC, &t);
	return t.tv_sec * 1e9 + t.tv_nsec;
}

static int loaded(const struct bpf_insn *code, size_t count, double *time)
{
	union bpf_attr given;
	memset(&given, 0, sizeof given);
	given.prog_type = BPF_PROG_TYPE_XDP;
	given.insns = (uintptr_t)code;
	given.insn_cnt = count;
	given.license = (uintptr_t) "GPL";
	double start = now();
	int program = bpf(BPF_PROG_LOAD, &given);
	*time = now() - start;
	if (program < 0) {
		perror("BPF_PROG_LOAD");
		exit(1);
	}
	return program;
}

/* The maps of an image, as descriptors. */
static void make_maps(const uint8_t *image, int *maps)
{
	for (int map = 0; map < image[5] && map < MAPS; map++)
		if ((maps[map] = made_map(image + 8 + 16 * map)) < 0) {
			perror("BPF_MAP_CREATE");
			exit(1);
		}
}

static void tested(union bpf_attr *given, int program, const uint8_t *frame, size_t length, uint8_t *out, int runs)
{
	memset(given, 0, sizeof *given);
	given->test.prog_fd = program;
	given->test.data_in = (uintptr_t)frame;
	given->test.data_size_in = length;
	given->test.data_out = (uintptr_t)out;
	given->test.data_size_out = LONGEST + ROOM;
	given->test.repeat = runs;
	if (bpf(BPF_PROG_TEST_RUN, given) < 0) {
		perror("BPF_PROG_TEST_RUN");
		exit(1);
	}
}

static void read_hex(const char *digits, uint8_t *bytes)
{
	for (; sscanf(digits, "%2hhx", bytes) == 1; digits += 2)
		bytes++;
}

static FILE *opened(const char *name, const char *how)
{
	FILE *file = fopen(name, how);
	if (!file) {
		perror(name);
		exit(2);
	}
	setvbuf(file, malloc(PIECE), _IOFBF, PIECE);
	return file;
}

static void update(const char *name, const int *maps)
{
	char key[128], value[1024];
	uint8_t key_bytes[64], value_bytes[512];
	int map;
	FILE *file = opened(name, "r");
	while (fscanf(file, "%d %127s %1023s", &map, key, value) == 3) {
		read_hex(key, key_bytes);
		read_hex(value, value_bytes);
		union bpf_attr given;
		memset(&given, 0, sizeof given);
		given.map_fd = maps[map];
		given.key = (uintptr_t)key_bytes;
		given.value = (uintptr_t)value_bytes;
		if (bpf(BPF_MAP_UPDATE_ELEM, &given) < 0) {
			perror("BPF_MAP_UPDATE_ELEM");
			exit(1);
		}
	}
	fclose(file);
}

/* Runs the program on each record, and counts the verdicts. */
static void replay(int program, FILE *capture, FILE *sent, unsigned long *verdicts)
{
	static uint8_t frame[LONGEST], out[LONGEST + ROOM];
	uint8_t head[24], record[16];
	union bpf_attr given;
	if (fread(head, 1, sizeof head, capture) != sizeof head)
		exit(2);
	fwrite(head, 1, sizeof head, sent);
	while (fread(record, 1, sizeof record, capture) == sizeof record) {
		uint32_t kept = word(record + 8);
		if (kept > LONGEST || fread(frame, 1, kept, capture) != kept)
			exit(2);
		tested(&given, program, frame, kept, out, 1);
		verdicts[given.test.retval < 4 ? given.test.retval : 0]++;
		if (given.test.retval != 3)
			continue;
		memcpy(record + 8, &given.test.data_size_out, 4);
		memcpy(record + 12, &given.test.data_size_out, 4);
		fwrite(record, 1, sizeof record, sent);
		fwrite(out, 1, given.test.data_size_out, sent);
	}
}

static int replayed(char **words)
{
	size_t length;
	uint8_t *image = contents(words[0], &length);
	int maps[MAPS];
	double time;
	make_maps(image, maps);
	size_t head = 8 + 16 * (size_t)image[5], count = (length - head) / 8;
	int program = loaded(slots(image + head, count, maps), count, &time);
	update(words[1], maps);
	unsigned long verdicts[4] = {0};
	clock_t start = clock();
	FILE *capture = opened(words[2], "rb"), *sent = opened(words[3], "wb");
	replay(program, capture, sent, verdicts);
	if (fclose(sent)) {
		perror(words[3]);
		return 1;
	}
	printf("aborted %lu drop %lu pass %lu tx %lu seconds %.3f\n", verdicts[0], verdicts[1], verdicts[2], verdicts[3],
	       (double)(clock() - start) / CLOCKS_PER_SEC);
	return 0;
}

int main(int count, char **words)
{
	if (count == 6 && !strcmp(words[1], "--replay"))
		return replayed(words + 2);
	if (count != 4)
		return 2;
	static uint8_t out[LONGEST + ROOM];
	size_t length, frame_length;
	uint8_t *image = contents(words[1], &length), *frame = contents(words[2], &frame_length);
	int maps[MAPS];
	make_maps(image, maps);
	size_t head = 8 + 16 * (size_t)image[5], code_length = (length - head) / 8;
	struct bpf_insn *code = slots(image + head, code_length, maps);
	double accept = 1e18, time;
	int program = -1;
	for (int turn = 0; turn < 20; turn++) {
		if (program >= 0)
			close(program);
		program = loaded(code, code_length, &time);
		if (time < accept)
			accept = time;
	}
	union bpf_attr given;
	tested(&given, program, frame, frame_length, out, atoi(words[3]));
	printf("run %u accept %.0f\n", given.test.duration, accept);
	return 0;
}
