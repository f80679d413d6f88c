/*
 * A program of libxenvchan that knows nothing of this project. It makes both ends by the library's own functions
 * and calls no others. `run preload` runs it as it is and with libvchan_proved.so before the library. Both must print
 * the same: a sum over each answer, each byte that was read, the head of the page and the signals after each call.
 */
#define _GNU_SOURCE
#include "../peer/stand_ins.h"
#include <pthread.h>
#include <stdio.h>
#include <stdlib.h>
#include <string.h>
#include <sys/mman.h>
#include <sys/wait.h>
#include <unistd.h>

static const int orders[][2] = { { 10, 11 }, { 11, 10 }, { 11, 12 }, { 12, 11 }, { 12, 12 }, { 13, 14 }, { 16, 12 }, { 20, 20 } };
#define PAIRS (sizeof orders / sizeof *orders)

#define CHECK(it) \
	do { \
		if (!(it)) { \
			fflush(stdout); \
			fprintf(stderr, "unchanged.c:%d: %s\n", __LINE__, #it); \
			abort(); \
		} \
	} while (0)

static uint64_t seed;

static uint32_t draw(void)
{
	seed ^= seed << 13;
	seed ^= seed >> 7;
	seed ^= seed << 17;
	return (uint32_t)(seed >> 16);
}

static uint64_t sum_on(uint64_t sum, uint64_t value)
{
	return (sum ^ value) * 1099511628211ull;
}

static void open_pair(struct libxenvchan *end[2], int left, int right, int blocking)
{
	memset(&page, 0, sizeof page);
	memset(granted, 0, sizeof granted);
	make_next(SERVER);
	end[SERVER] = libxenvchan_server_init(NULL, 0, "/local", (size_t)1 << left, (size_t)1 << right);
	make_next(CLIENT);
	end[CLIENT] = libxenvchan_client_init(NULL, 0, "/local");
	CHECK(end[SERVER] && end[CLIENT]);
	end[SERVER]->blocking = end[CLIENT]->blocking = blocking;
	take_signal(SERVER), take_signal(CLIENT);
}

static uint64_t by_turns(int left, int right, int calls)
{
	static uint8_t data[2 * GREATEST_RING];
	struct libxenvchan *end[2];
	uint64_t sum = 14695981039346656037ull;

	open_pair(end, left, right, 0);
	for (int i = 0; i < calls; i++) {
		struct libxenvchan *who = end[draw() & 1];
		size_t size = (size_t)1 << (draw() & 1 ? left : right), n = draw() % 4 ? draw() % (size / 2) : draw() % 40;
		uint64_t before = signals_given;
		int act = (int)(draw() % 9), count;

		for (size_t k = 0; act < 3 && k < n; k++)
			data[k] = (uint8_t)draw();
		count = act < 2	   ? libxenvchan_write(who, data, n)
			: act == 2 ? libxenvchan_send(who, data, n)
			: act < 5  ? libxenvchan_read(who, data, n)
			: act == 5 ? libxenvchan_recv(who, data, n)
			: act == 6 ? libxenvchan_data_ready(who)
			: act == 7 ? libxenvchan_buffer_space(who)
				   : libxenvchan_is_open(who);
		sum = sum_on(sum, (uint64_t)count);
		for (int k = 0; act >= 3 && act < 6 && k < count; k++)
			sum = sum_on(sum, data[k]);
		for (size_t k = 0; k < HEAD_SIZE; k++)
			sum = sum_on(sum, page.bytes[k]);
		sum = sum_on(sum, signals_given - before);
	}
	libxenvchan_close(end[CLIENT]);
	sum = sum_on(sum, (uint64_t)libxenvchan_write(end[SERVER], "x", 1));
	sum = sum_on(sum, (uint64_t)libxenvchan_is_open(end[SERVER]));
	libxenvchan_close(end[SERVER]);
	for (size_t k = 0; k < HEAD_SIZE; k++)
		sum = sum_on(sum, page.bytes[k]);
	return sum;
}

/* Calls that wait, by a thread of each end. */
struct stream {
	struct libxenvchan *end;
	int writes;
	size_t total;
};

static void *move_all(void *context)
{
	struct stream *stream = context;
	uint8_t data[3000];

	for (size_t at = 0; at < stream->total;) {
		size_t n = 1 + at % sizeof data;
		int count;

		if (n > stream->total - at)
			n = stream->total - at;
		if (stream->writes) {
			for (size_t k = 0; k < n; k++)
				data[k] = (uint8_t)((at + k) * 0x9E3779B97F4A7C15ull >> 56);
			count = libxenvchan_write(stream->end, data, n);
			CHECK(count == (int)n);
		} else {
			count = libxenvchan_read(stream->end, data, n);
			CHECK(count > 0);
			for (int k = 0; k < count; k++)
				CHECK(data[k] == (uint8_t)((at + (size_t)k) * 0x9E3779B97F4A7C15ull >> 56));
		}
		at += (size_t)count;
	}
	return NULL;
}

static void in_threads(int left, int right, size_t total)
{
	for (int writer = SERVER; writer <= CLIENT; writer++) {
		struct libxenvchan *end[2];
		struct stream out, in;
		pthread_t one, two;

		open_pair(end, left, right, 1);
		out = (struct stream){ end[writer], 1, total };
		in = (struct stream){ end[!writer], 0, total };
		CHECK(!pthread_create(&one, NULL, move_all, &out) && !pthread_create(&two, NULL, move_all, &in));
		CHECK(!pthread_join(one, NULL) && !pthread_join(two, NULL));
		libxenvchan_close(end[CLIENT]);
		libxenvchan_close(end[SERVER]);
	}
}

/* A page that forked processes share, as a granted one is. */
static void share(void *start, size_t size)
{
	CHECK(mmap(start, size, PROT_READ | PROT_WRITE, MAP_SHARED | MAP_ANONYMOUS | MAP_FIXED, -1, 0) == start);
}

/* An end that a process uses, then one that it forks, then it again. */
static void in_processes(int left, int right)
{
	struct libxenvchan *end[2];
	char got[64];
	int status, count;
	pid_t child;

	open_pair(end, left, right, 0);
	CHECK(libxenvchan_write(end[CLIENT], "AAAAA", 5) == 5);
	fflush(stdout);
	if (!(child = fork()))
		_exit(libxenvchan_write(end[CLIENT], "BBBBB", 5) != 5);
	CHECK(waitpid(child, &status, 0) == child && status == 0);
	CHECK(libxenvchan_write(end[CLIENT], "CC", 2) == 2);
	if (!(child = fork()))
		_exit(libxenvchan_read(end[SERVER], got, 3) != 3 || memcmp(got, "AAA", 3) != 0);
	CHECK(waitpid(child, &status, 0) == child);
	count = libxenvchan_read(end[SERVER], got, sizeof got);
	printf("forked: %d, %.*s\n", status, count, got);
	libxenvchan_close(end[CLIENT]);
	libxenvchan_close(end[SERVER]);
}

/* A server that is told late to stay open for the next client. */
static void persistent(int left, int right)
{
	struct libxenvchan *end[2];
	int before, after;

	open_pair(end, left, right, 0);
	CHECK(libxenvchan_write(end[SERVER], "a", 1) == 1);
	libxenvchan_close(end[CLIENT]);
	before = libxenvchan_write(end[SERVER], "b", 1);
	end[SERVER]->server_persist = 1;
	after = libxenvchan_write(end[SERVER], "c", 1);
	printf("persistent: %d, %d, %d\n", before, after, libxenvchan_is_open(end[SERVER]));
	libxenvchan_close(end[SERVER]);
}

int main(void)
{
	begin_stand_ins(true);
	share(&page, sizeof page);
	share(granted, sizeof granted);
	for (size_t i = 0; i < PAIRS; i++) {
		seed = 88172645463325252ull + i;
		printf("orders %d %d: %016lx\n", orders[i][0], orders[i][1], by_turns(orders[i][0], orders[i][1], orders[i][0] > 16 ? 300 : 5000));
		in_threads(orders[i][0], orders[i][1], (size_t)1 << 19);
		in_processes(orders[i][0], orders[i][1]);
		persistent(orders[i][0], orders[i][1]);
		fflush(stdout);
	}
	check_reached();
	return 0;
}
