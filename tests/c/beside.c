/*
 * Plays ends of c/vchan_page.h beside ends of the system's own libxenvchan, on one page: each of the four pairings,
 * by turns and in two threads. By turns, after every call, the head of the page and the signals must be those of the
 * library's two ends.
 */
#include "../../c/vchan_page.h"
#include "../peer/stand_ins.h"
#include <pthread.h>
#include <stdio.h>
#include <stdlib.h>
#include <string.h>

static const int orders[][2] = { { 10, 11 }, { 11, 10 }, { 11, 12 }, { 12, 11 }, { 12, 12 }, { 13, 14 }, { 16, 12 }, { 20, 20 } };
#define PAIRS (sizeof orders / sizeof *orders)

#define CHECK(it) \
	do { \
		if (!(it)) { \
			fflush(stdout); \
			fprintf(stderr, "beside.c:%d: %s\n", __LINE__, #it); \
			abort(); \
		} \
	} while (0)

/* An end of either kind. */
struct either {
	enum who who;
	struct libxenvchan *library; /* NULL: the end is ours */
	struct vchan_page ours;
};

static bool notify(void *end)
{
	give_signal(!((struct either *)end)->who);
	return true;
}

static bool take_event(void *end)
{
	return take_signal(((struct either *)end)->who);
}

static bool wait_for_event(void *end)
{
	return wait_for_signal(((struct either *)end)->who);
}

static int pages_of(int order)
{
	return order < 12 ? 0 : 1 << (order - 12);
}

static uint8_t *ring_at(int order, int pages_before)
{
	return order == 10 ? page.bytes + 1024 : order == 11 ? page.bytes + 2048 : granted + (size_t)pages_before * PAGE_SIZE;
}

static void open_ours(struct either *end, int left, int right)
{
	struct vchan_interface *head = &page.header;
	bool client = end->who == CLIENT;
	struct vchan_setup with = {
		.role = client ? VCHAN_CLIENT : VCHAN_SERVER, .state = client ? VCHAN_FRESH : VCHAN_OPEN, .front = (struct vchan_front *)head,
		.left = ring_at(left, 0), .right = ring_at(right, pages_of(left)), .left_order = (uint32_t)left, .right_order = (uint32_t)right,
		.prod = client ? head->left.prod : head->right.prod, .cons = client ? head->right.cons : head->left.cons,
		.notify = notify, .take_event = take_event, .wait_for_event = wait_for_event, .context = end,
	};

	CHECK(vchan_page_open(&end->ours, &with) == 0);
}

/* Lays a page as the library's server lays one. */
static void lay(int left, int right)
{
	struct vchan_interface *head = &page.header;

	CHECK(vchan_page_lay((struct vchan_front *)head, (uint32_t)left, (uint32_t)right) == 0);
	for (int i = 0; i < pages_of(left) + pages_of(right); i++)
		head->grants[i] = (uint32_t)i;
}

/* Opens a page with a server and a client, each ours or the library's. */
static void open_pair(struct either end[2], bool ours_serves, bool ours_joins, int left, int right)
{
	memset(&page, 0, sizeof page);
	memset(granted, 0, sizeof granted);
	end[SERVER] = (struct either){ .who = SERVER };
	end[CLIENT] = (struct either){ .who = CLIENT };
	if (ours_serves) {
		lay(left, right);
		open_ours(&end[SERVER], left, right);
	} else {
		make_next(SERVER);
		end[SERVER].library = libxenvchan_server_init(NULL, 0, "/local", (size_t)1 << left, (size_t)1 << right);
		CHECK(end[SERVER].library && page.header.left_order == left && page.header.right_order == right);
		end[SERVER].library->blocking = 0;
	}
	if (ours_joins) {
		open_ours(&end[CLIENT], left, right);
		CHECK(vchan_page_connect(&end[CLIENT].ours) == 0);
	} else {
		make_next(CLIENT);
		end[CLIENT].library = libxenvchan_client_init(NULL, 0, "/local");
		CHECK(end[CLIENT].library);
		end[CLIENT].library->blocking = 0;
	}
	CHECK(page.header.cli_live == 1);
	take_signal(SERVER), take_signal(CLIENT);
}

static int write_some(struct either *end, const void *data, size_t n)
{
	return end->library ? libxenvchan_write(end->library, data, n) : vchan_page_write(&end->ours, data, n);
}

static int send_all(struct either *end, const void *data, size_t n)
{
	return end->library ? libxenvchan_send(end->library, data, n) : vchan_page_send(&end->ours, data, n);
}

static int read_some(struct either *end, void *data, size_t n)
{
	return end->library ? libxenvchan_read(end->library, data, n) : vchan_page_read(&end->ours, data, n);
}

static int recv_all(struct either *end, void *data, size_t n)
{
	return end->library ? libxenvchan_recv(end->library, data, n) : vchan_page_recv(&end->ours, data, n);
}

static int data_ready(struct either *end)
{
	return end->library ? libxenvchan_data_ready(end->library) : vchan_page_data_ready(&end->ours);
}

static int buffer_space(struct either *end)
{
	return end->library ? libxenvchan_buffer_space(end->library) : vchan_page_buffer_space(&end->ours);
}

static int is_open(struct either *end)
{
	return end->library ? libxenvchan_is_open(end->library) : vchan_page_is_open(&end->ours);
}

static void close_end(struct either *end)
{
	if (end->library)
		libxenvchan_close(end->library);
	else
		CHECK(vchan_page_close(&end->ours) == 0);
}

static uint64_t seed;

static uint32_t draw(void)
{
	seed ^= seed << 13;
	seed ^= seed >> 7;
	seed ^= seed << 17;
	return (uint32_t)(seed >> 16);
}

/* What was seen after each call, as one number. */
static uint64_t sum_on(uint64_t sum, uint64_t value)
{
	return (sum ^ value) * 1099511628211ull;
}

static uint64_t by_turns(bool ours_serves, bool ours_joins, int left, int right, int calls)
{
	static uint8_t data[2 * GREATEST_RING];
	struct either end[2];
	uint64_t sum = 14695981039346656037ull;

	open_pair(end, ours_serves, ours_joins, left, right);
	for (int i = 0; i < calls; i++) {
		struct either *who = &end[draw() & 1];
		size_t size = (size_t)1 << (draw() & 1 ? left : right), n = draw() % 4 ? draw() % (size / 2) : draw() % 3 ? draw() % 40 : size + draw() % 3 - 1;
		uint64_t before = signals_given;
		int act = (int)(draw() % 8), count;

		for (size_t k = 0; act < 3 && k < n; k++)
			data[k] = (uint8_t)draw();
		count = act < 2	   ? write_some(who, data, n)
			: act == 2 ? send_all(who, data, n)
			: act < 5  ? read_some(who, data, n)
			: act == 5 ? recv_all(who, data, n)
			: act == 6 ? data_ready(who)
				   : buffer_space(who);
		CHECK(count >= 0 && is_open(who) == 1);
		sum = sum_on(sum, (uint64_t)count);
		for (int k = 0; act >= 3 && act < 6 && k < count; k++)
			sum = sum_on(sum, data[k]);
		for (size_t k = 0; k < HEAD_SIZE; k++)
			sum = sum_on(sum, page.bytes[k]);
		sum = sum_on(sum, signals_given - before);
	}
	int first = draw() & 1;
	close_end(&end[first]);
	CHECK((first ? page.header.cli_live : page.header.srv_live) == 0 && is_open(&end[!first]) == 0);
	CHECK(write_some(&end[!first], "x", 1) == -1);
	close_end(&end[!first]);
	return sum;
}

static uint8_t pattern(uint64_t key, size_t at)
{
	return (uint8_t)((at + key) * 0x9E3779B97F4A7C15ull >> 56);
}

struct stream {
	struct either *end;
	bool writes;
	size_t total, most;
	uint64_t key;
};

static void *move_all(void *context)
{
	struct stream *stream = context;
	struct either *end = stream->end;
	uint8_t *data = malloc(stream->most);

	CHECK(data);
	for (size_t at = 0; at < stream->total;) {
		size_t n = stream->most < stream->total - at ? stream->most : stream->total - at;
		int count;

		if (stream->writes) {
			for (size_t k = 0; k < n; k++)
				data[k] = pattern(stream->key, at + k);
			count = end->library ? libxenvchan_write(end->library, data, n) : vchan_page_write_all(&end->ours, data, n);
			CHECK(count == (int)n);
		} else {
			count = end->library ? libxenvchan_read(end->library, data, n) : vchan_page_read_wait(&end->ours, data, n);
			CHECK(count > 0);
			for (int k = 0; k < count; k++)
				CHECK(data[k] == pattern(stream->key, at + (size_t)k));
		}
		at += (size_t)count;
	}
	free(data);
	return NULL;
}

static void in_threads(bool ours_serves, bool ours_joins, int left, int right, size_t total, size_t most)
{
	for (int writer = SERVER; writer <= CLIENT; writer++) {
		struct either end[2];
		pthread_t one, two;
		struct stream out, in;

		open_pair(end, ours_serves, ours_joins, left, right);
		for (int who = SERVER; who <= CLIENT; who++)
			if (end[who].library)
				end[who].library->blocking = 1;
		out = (struct stream){ &end[writer], true, total, most, total + most };
		in = (struct stream){ &end[!writer], false, total, most + most / 3, out.key };
		CHECK(!pthread_create(&one, NULL, move_all, &out) && !pthread_create(&two, NULL, move_all, &in));
		CHECK(!pthread_join(one, NULL) && !pthread_join(two, NULL));
		close_end(&end[CLIENT]), close_end(&end[SERVER]);
	}
}

int main(void)
{
	static const char *const pairings[] = { "the library alone", "our client", "our server", "ours alone" };
	int failed = 0;

	begin_stand_ins(true);
	for (size_t i = 0; i < PAIRS; i++) {
		int left = orders[i][0], right = orders[i][1];
		uint64_t alone = 0;

		for (int pairing = 0; pairing < 4; pairing++) {
			uint64_t sum;

			seed = 88172645463325252ull + i;
			sum = by_turns(pairing & 2, pairing & 1, left, right, left > 16 ? 300 : 5000);
			if (pairing == 0)
				alone = sum;
			if (sum != alone) {
				printf("orders %d %d, %s: answers, bytes, heads or signals differ from the library's\n", left, right, pairings[pairing]);
				failed = 1;
			}
			in_threads(pairing & 2, pairing & 1, left, right, (size_t)1 << 19, 1 + i * 997);
		}
		printf("orders %d %d: four pairings\n", left, right);
		fflush(stdout);
	}
	if (!failed)
		check_reached();
	return failed;
}
