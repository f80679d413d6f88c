/*
 * Measures one write and one read of a number of bytes, by two ends of libxenvchan and by two of c/vchan_page.h, in
 * turns: in one thread by its processor time, and in two threads, which pass the bytes one after another, by the
 * clock. bench/c builds it.
 */
#include "../c/vchan_page.h"
#include "../tests/peer/stand_ins.h"
#include <pthread.h>
#include <stdio.h>
#include <stdlib.h>
#include <string.h>
#include <time.h>

#define ORDER 17
#define ROUNDS 21

static const size_t sizes[] = { 1, 64, 4096, 65536 };
static uint8_t data[2][65536];

struct pair {
	struct libxenvchan *library[2];
	struct vchan_page ours[2];
};

static void fail(const char *why)
{
	fprintf(stderr, "bench/c: %s\n", why);
	exit(1);
}

static bool notify(void *who)
{
	give_signal(who ? SERVER : CLIENT);
	return true;
}

static bool wait_for_event(void *who)
{
	return wait_for_signal(who ? CLIENT : SERVER);
}

static void open_pair(struct pair *pair, bool ours, bool waits)
{
	memset(&page, 0, sizeof page);
	make_next(SERVER);
	pair->library[SERVER] = libxenvchan_server_init(NULL, 0, "/local", (size_t)1 << ORDER, (size_t)1 << ORDER);
	make_next(CLIENT);
	pair->library[CLIENT] = libxenvchan_client_init(NULL, 0, "/local");
	if (!pair->library[SERVER] || !pair->library[CLIENT])
		fail("no ends");
	pair->library[SERVER]->blocking = pair->library[CLIENT]->blocking = waits;
	for (int who = SERVER; ours && who <= CLIENT; who++) {
		const struct libxenvchan *of = pair->library[SERVER];
		struct vchan_setup with = {
			.role = who == CLIENT ? VCHAN_CLIENT : VCHAN_SERVER, .state = VCHAN_OPEN, .front = (struct vchan_front *)&page,
			.left = of->read.buffer, .right = of->write.buffer, .left_order = ORDER, .right_order = ORDER,
			.notify = notify, .wait_for_event = wait_for_event, .context = who == CLIENT ? pair : NULL,
		};

		if (vchan_page_open(&pair->ours[who], &with))
			fail("no ends of ours");
	}
	take_signal(SERVER), take_signal(CLIENT);
}

static void close_pair(struct pair *pair)
{
	libxenvchan_close(pair->library[CLIENT]);
	libxenvchan_close(pair->library[SERVER]);
}

static double seconds(clockid_t clock)
{
	struct timespec now;

	clock_gettime(clock, &now);
	return (double)now.tv_sec + (double)now.tv_nsec * 1e-9;
}

static double in_one_thread(bool ours, size_t size, int times)
{
	struct pair pair;
	double start;

	open_pair(&pair, ours, false);
	start = seconds(CLOCK_THREAD_CPUTIME_ID);
	for (int i = 0; i < times; i++) {
		int wrote = ours ? vchan_page_write(&pair.ours[CLIENT], data[0], size) : libxenvchan_write(pair.library[CLIENT], data[0], size);
		int read = ours ? vchan_page_read(&pair.ours[SERVER], data[1], size) : libxenvchan_read(pair.library[SERVER], data[1], size);

		if (wrote != (int)size || read != (int)size)
			fail("a call moved less");
	}
	start = seconds(CLOCK_THREAD_CPUTIME_ID) - start;
	close_pair(&pair);
	return start / times;
}

struct side {
	struct pair *pair;
	bool ours, writes;
	size_t size;
	int times;
};

static void *move_all(void *context)
{
	struct side *side = context;
	struct pair *pair = side->pair;

	for (size_t left = side->size * (size_t)side->times; left;) {
		size_t size = side->size < left ? side->size : left;
		int count = side->writes ? side->ours ? vchan_page_write_all(&pair->ours[CLIENT], data[0], size) : libxenvchan_write(pair->library[CLIENT], data[0], size)
				: side->ours	 ? vchan_page_read_wait(&pair->ours[SERVER], data[1], size)
						 : libxenvchan_read(pair->library[SERVER], data[1], size);

		if (count <= 0)
			fail("a call moved nothing");
		left -= (size_t)count;
	}
	return NULL;
}

static double in_two_threads(bool ours, size_t size, int times)
{
	struct pair pair;
	struct side out = { &pair, ours, true, size, times }, in = { &pair, ours, false, size, times };
	pthread_t one, two;
	double start;

	open_pair(&pair, ours, true);
	start = seconds(CLOCK_MONOTONIC);
	if (pthread_create(&one, NULL, move_all, &out) || pthread_create(&two, NULL, move_all, &in))
		fail("no threads");
	pthread_join(one, NULL), pthread_join(two, NULL);
	start = seconds(CLOCK_MONOTONIC) - start;
	close_pair(&pair);
	return start / times;
}

static int ascending(const void *a, const void *b)
{
	double x = *(const double *)a, y = *(const double *)b;

	return x < y ? -1 : x > y;
}

static double median(double *of)
{
	qsort(of, ROUNDS, sizeof *of, ascending);
	return of[ROUNDS / 2];
}

static void compare(const char *name, double (*measure)(bool, size_t, int), size_t size, int times)
{
	double library[ROUNDS], ours[ROUNDS], ratio[ROUNDS];

	for (int i = 0; i < ROUNDS; i++) {
		library[i] = measure(false, size, times);
		ours[i] = measure(true, size, times);
		ratio[i] = ours[i] / library[i];
	}
	printf("%-12s %6zu %12.1f %12.1f %8.2f\n", name, size, median(library) * 1e9, median(ours) * 1e9, median(ratio));
	fflush(stdout);
}

int main(void)
{
	begin_stand_ins(true);
	printf("%-12s %6s %12s %12s %8s\n", "", "bytes", "library, ns", "ours, ns", "ratio");
	for (size_t i = 0; i < sizeof sizes / sizeof *sizes; i++)
		compare("one thread", in_one_thread, sizes[i], sizes[i] > 4096 ? 2000 : 20000);
	for (size_t i = 0; i < sizeof sizes / sizeof *sizes; i++)
		compare("two threads", in_two_threads, sizes[i], sizes[i] > 4096 ? 500 : 5000);
	return 0;
}
