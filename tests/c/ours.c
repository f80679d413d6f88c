/*
 * Plays ends of c/vchan_page.h beside one another, with no other library: by turns against queues, in two threads,
 * in two processes, and one end beside stores of any values into its page. It is built with AddressSanitizer: the
 * head of a page, each ring and each buffer is a block of exactly its size.
 */
#define _GNU_SOURCE
#include "../../c/vchan_page.h"
#include <errno.h>
#include <poll.h>
#include <pthread.h>
#include <signal.h>
#include <stdio.h>
#include <stdlib.h>
#include <string.h>
#include <sys/eventfd.h>
#include <sys/mman.h>
#include <sys/wait.h>
#include <unistd.h>

#define HEAD_SIZE sizeof(struct vchan_front)
#define PATIENCE 20000 /* milliseconds that a thread waits for a signal */

/* Offsets in Xen's struct vchan_interface, by hand. */
enum { LEFT_CONS = 0, LEFT_PROD = 4, RIGHT_CONS = 8, RIGHT_PROD = 12, LEFT_ORDER = 16, RIGHT_ORDER = 18, CLI_LIVE = 20,
       SRV_LIVE = 21, CLI_NOTIFY = 22, SRV_NOTIFY = 23 };
enum { BIT_WRITTEN = 1, BIT_CONSUMED = 2 };

static const int orders[][2] = { { 10, 11 }, { 11, 10 }, { 11, 12 }, { 12, 11 }, { 12, 12 }, { 13, 14 }, { 16, 12 }, { 20, 20 } };
#define PAIRS (sizeof orders / sizeof *orders)

#define CHECK(it) \
	do { \
		if (!(it)) { \
			fflush(stdout); \
			fprintf(stderr, "ours.c:%d: %s\n", __LINE__, #it); \
			abort(); \
		} \
	} while (0)

/* What counted.h counts. */
unsigned long loads, entered;

static uint64_t seed = 1;

static uint32_t draw(void)
{
	seed ^= seed << 13;
	seed ^= seed >> 7;
	seed ^= seed << 17;
	return (uint32_t)(seed >> 16);
}

/* Two ends of a page, and what stands for their event channel: a counter for each. */
struct line {
	uint8_t *head, *ring[2];
	int left, right;
	struct vchan_page end[2]; /* server, client */
	struct ear { int own, peer; } ear[2];
};

static bool notify(void *context)
{
	uint64_t one = 1;

	return write(((struct ear *)context)->peer, &one, sizeof one) == sizeof one;
}

static bool take(int fd, int patience)
{
	struct pollfd it = { .fd = fd, .events = POLLIN };
	uint64_t count;

	if (poll(&it, 1, patience) != 1)
		return false;
	CHECK(read(fd, &count, sizeof count) == sizeof count);
	return true;
}

static bool take_event(void *context)
{
	return take(((struct ear *)context)->own, 0);
}

static bool wait_for_event(void *context)
{
	bool came = take(((struct ear *)context)->own, PATIENCE);

	if (!came)
		errno = ETIMEDOUT;
	return came;
}

static struct vchan_setup setup_of(struct line *line, int who, uint32_t start)
{
	return (struct vchan_setup){
		.role = who ? VCHAN_CLIENT : VCHAN_SERVER, .state = who ? VCHAN_FRESH : VCHAN_OPEN,
		.front = (struct vchan_front *)(void *)line->head, .left = line->ring[0], .right = line->ring[1],
		.left_order = (uint32_t)line->left, .right_order = (uint32_t)line->right, .prod = start, .cons = start,
		.notify = notify, .take_event = take_event, .wait_for_event = wait_for_event, .context = &line->ear[who],
	};
}

/* A new page with a server, and a client that connects. Both counts of both rings begin at `start`. */
static void lay(struct line *line, void *(*block)(size_t), int left, int right, uint32_t start)
{
	uint16_t order[2] = { (uint16_t)left, (uint16_t)right };
	int fd[2] = { eventfd(0, 0), eventfd(0, 0) };
	uint8_t new[HEAD_SIZE] = { 0 };

	line->left = left, line->right = right;
	line->head = block(HEAD_SIZE);
	line->ring[0] = block((size_t)1 << left);
	line->ring[1] = block((size_t)1 << right);
	memset(line->head, 0xff, HEAD_SIZE);
	CHECK(vchan_page_lay((struct vchan_front *)(void *)line->head, order[0], order[1]) == 0);
	memcpy(new + LEFT_ORDER, order, sizeof order);
	new[CLI_LIVE] = 2, new[SRV_LIVE] = 1, new[CLI_NOTIFY] = BIT_WRITTEN;
	CHECK(memcmp(line->head, new, HEAD_SIZE) == 0);
	for (int word = LEFT_CONS; word <= RIGHT_PROD; word += 4)
		memcpy(line->head + word, &start, sizeof start);
	for (int who = 0; who < 2; who++) {
		struct vchan_setup with = setup_of(line, who, start);

		line->ear[who] = (struct ear){ fd[who], fd[!who] };
		CHECK(vchan_page_open(&line->end[who], &with) == 0);
	}
	CHECK(vchan_page_is_open(&line->end[0]) == 2 && vchan_page_is_open(&line->end[1]) == 1);
	CHECK(vchan_page_write(&line->end[1], "x", 1) == -1 && errno == ENOTCONN);
	CHECK(vchan_page_connect(&line->end[1]) == 0);
	CHECK(vchan_page_connect(&line->end[1]) == -1 && errno == EISCONN);
	CHECK(line->head[CLI_LIVE] == 1 && line->head[SRV_NOTIFY] == BIT_WRITTEN);
	CHECK(vchan_page_is_open(&line->end[0]) == 1 && vchan_page_is_open(&line->end[1]) == 1);
	CHECK(vchan_page_take_event(&line->end[0]) == 1 && vchan_page_take_event(&line->end[0]) == 0);
}

static void *zeros(size_t size)
{
	void *block = calloc(1, size);

	CHECK(block);
	return block;
}

static void clear(struct line *line)
{
	free(line->head), free(line->ring[0]), free(line->ring[1]);
	close(line->ear[0].own), close(line->ear[1].own);
}

static uint32_t index_at(const struct line *line, int word)
{
	uint32_t index;

	memcpy(&index, line->head + word, sizeof index);
	return index;
}

/* Random calls of both ends by turns. What each returns and gets is what a queue for each ring says, the page
 * has the counts, and a signal comes exactly where the peer asked. */
static void by_turns(int left, int right, int calls)
{
	struct line line;
	size_t size[2] = { (size_t)1 << left, (size_t)1 << right }, held[2] = { 0, 0 };
	uint8_t *queue[2] = { zeros(size[0]), zeros(size[1]) };
	uint32_t start = (uint32_t)-700, prod[2] = { start, start }, cons[2] = { start, start };

	lay(&line, zeros, left, right, start);
	for (int i = 0; i < calls; i++) {
		int who = draw() & 1, written = who ? 0 : 1, ring, act = draw() % 6;
		struct vchan_page *end = &line.end[who];
		uint8_t *ask = line.head + (who ? SRV_NOTIFY : CLI_NOTIFY), *asked = line.head + (who ? CLI_NOTIFY : SRV_NOTIFY);
		size_t most, n;
		uint8_t before = *asked, own = *ask, *data;
		bool is_write = act < 2, is_read = act == 2 || act == 3;
		uint8_t bit = is_write ? BIT_WRITTEN : BIT_CONSUMED;
		int count;

		ring = is_read || act == 4 ? !written : written;
		most = is_read || act == 4 ? held[ring] : size[ring] - held[ring];
		n = draw() % 4 == 0 ? draw() % 40 : draw() % 3 == 0 ? most + draw() % 3 - (most && draw() % 2) : draw() % (size[ring] / 3 + 1);
		if (act == 4 || act == 5) {
			CHECK((act == 4 ? vchan_page_data_ready(end) : vchan_page_buffer_space(end)) == (int)most);
			CHECK(*ask == (own | (act == 4 ? BIT_WRITTEN : BIT_CONSUMED)));
			CHECK(!vchan_page_take_event(&line.end[!who]));
			continue;
		}
		data = malloc(n ? n : 1);
		CHECK(data);
		for (size_t k = 0; is_write && k < n; k++)
			data[k] = (uint8_t)draw();
		loads = entered = 0;
		count = act == 0   ? vchan_page_write(end, data, n)
			: act == 1 ? vchan_page_send(end, data, n)
			: act == 2 ? vchan_page_read(end, data, n)
				   : vchan_page_recv(end, data, n);
		CHECK(count == (int)(n <= most ? n : act == 0 || act == 2 ? most : 0));
		/* each look is one load, and there is a second one behind an ask alone */
		CHECK(loads <= (is_write ? 2u : count ? 1u : 2u) + (n > most));
		CHECK(entered <= 2u + (n > most ? 2u : 0u) + (!is_write && !count));
		if (is_write) {
			memcpy(queue[ring] + held[ring], data, (size_t)count);
			held[ring] += (size_t)count, prod[ring] += (uint32_t)count;
		} else {
			CHECK(memcmp(data, queue[ring], (size_t)count) == 0);
			memmove(queue[ring], queue[ring] + count, held[ring] - (size_t)count);
			held[ring] -= (size_t)count, cons[ring] += (uint32_t)count;
		}
		free(data);
		for (int r = 0; r < 2; r++)
			CHECK(index_at(&line, r ? RIGHT_PROD : LEFT_PROD) == prod[r] && index_at(&line, r ? RIGHT_CONS : LEFT_CONS) == cons[r]);
		CHECK(*ask == (n > most ? own | (is_write ? BIT_CONSUMED : BIT_WRITTEN) : own));
		if (count) {
			CHECK(vchan_page_take_event(&line.end[!who]) == !!(before & bit));
			CHECK(*asked == (before & ~bit));
		} else {
			CHECK(vchan_page_take_event(&line.end[!who]) == 0 || (before & bit && n == 0));
		}
	}
	/* A peer that has closed: its bytes are drained, and then the end of the stream is told. */
	while (vchan_page_take_event(&line.end[0]))
		;
	CHECK(vchan_page_close(&line.end[1]) == 0 && line.head[CLI_LIVE] == 0 && vchan_page_is_open(&line.end[0]) == 0);
	CHECK(vchan_page_take_event(&line.end[0]) == 1);
	CHECK(vchan_page_write(&line.end[0], "x", 1) == -1 && errno == EPIPE);
	CHECK(vchan_page_read(&line.end[1], queue[1], 1) == -1 && errno == ENOTCONN);
	while (held[0]) {
		int count = vchan_page_drain(&line.end[0], queue[0], size[0]);

		CHECK(count > 0);
		held[0] -= (size_t)count;
	}
	CHECK(vchan_page_drain(&line.end[0], queue[0], 1) == -1 && errno == EPIPE);
	CHECK(vchan_page_drain(&line.end[0], queue[0], 0) == -1 && errno == EINVAL);
	free(queue[0]), free(queue[1]);
	clear(&line);
}

static uint8_t pattern(uint64_t key, size_t at)
{
	return (uint8_t)((at + key) * 0x9E3779B97F4A7C15ull >> 56);
}

struct stream {
	struct vchan_page *end;
	bool writes;
	size_t total, most;
	uint64_t key;
};

/* Moves all bytes of a stream one way, in pieces of many sizes. */
static void *move_all(void *context)
{
	struct stream *stream = context;
	uint64_t state = stream->key * 2654435761u + stream->writes + 1;

	for (size_t at = 0; at < stream->total;) {
		size_t n = 1 + (state = state * 6364136223846793005ull + 1442695040888963407ull, state >> 33) % stream->most;
		uint8_t *data;
		int count;

		if (n > stream->total - at)
			n = stream->total - at;
		data = malloc(n);
		CHECK(data);
		if (stream->writes) {
			for (size_t k = 0; k < n; k++)
				data[k] = pattern(stream->key, at + k);
			count = vchan_page_write_all(stream->end, data, n);
			CHECK(count == (int)n);
		} else {
			count = vchan_page_read_wait(stream->end, data, n);
			CHECK(count > 0 && (size_t)count <= n);
			for (int k = 0; k < count; k++)
				CHECK(data[k] == pattern(stream->key, at + (size_t)k));
		}
		free(data);
		at += (size_t)count;
	}
	return NULL;
}

static void in_threads(int left, int right, size_t total)
{
	for (int writer = 0; writer < 2; writer++) {
		struct line line;
		pthread_t one, two;
		struct stream out, in;
		size_t size = (size_t)1 << (writer ? left : right);

		lay(&line, zeros, left, right, (uint32_t)-50000);
		out = (struct stream){ &line.end[writer], true, total, size / 3, draw() };
		in = (struct stream){ &line.end[!writer], false, total, size / 2, out.key };
		CHECK(!pthread_create(&one, NULL, move_all, &out) && !pthread_create(&two, NULL, move_all, &in));
		CHECK(!pthread_join(one, NULL) && !pthread_join(two, NULL));
		clear(&line);
	}
}

static void *shared(size_t size)
{
	void *block = mmap(NULL, size, PROT_READ | PROT_WRITE, MAP_SHARED | MAP_ANONYMOUS, -1, 0);

	CHECK(block != MAP_FAILED);
	return block;
}

/* The client is another process, which sends each byte back. */
static void in_processes(int left, int right, size_t total)
{
	struct line line;
	struct stream out, in;
	pid_t child;
	int status;

	lay(&line, shared, left, right, 7);
	out = (struct stream){ &line.end[0], true, total, 3000, draw() };
	in = (struct stream){ &line.end[0], false, total, 5000, out.key };
	fflush(stdout);
	child = fork();
	CHECK(child >= 0);
	if (child == 0) {
		uint8_t data[4000];

		for (size_t at = 0; at < total;) {
			int count = vchan_page_read_wait(&line.end[1], data, sizeof data);

			CHECK(count > 0 && vchan_page_write_all(&line.end[1], data, (size_t)count) == count);
			at += (size_t)count;
		}
		CHECK(vchan_page_close(&line.end[1]) == 0);
		_exit(0);
	}
	/* no more under way than both rings and the child's buffer hold */
	for (size_t at = 0; at < total; at += 1000) {
		size_t n = total - at < 1000 ? total - at : 1000;
		struct stream part = out;
		uint8_t data[1000];

		for (size_t k = 0; k < n; k++)
			data[k] = pattern(out.key, at + k);
		CHECK(vchan_page_write_all(part.end, data, n) == (int)n);
		for (size_t done = 0; done < n;) {
			int count = vchan_page_read_wait(in.end, data + done, n - done);

			CHECK(count > 0);
			done += (size_t)count;
		}
		for (size_t k = 0; k < n; k++)
			CHECK(data[k] == pattern(out.key, at + k));
	}
	CHECK(waitpid(child, &status, 0) == child && WIFEXITED(status) && WEXITSTATUS(status) == 0);
	CHECK(vchan_page_drain(&line.end[0], &line, 1) == -1 && errno == EPIPE);
}

struct hostile {
	struct line *line;
	bool is_over;
};

/* Any value into any word of the page, and any byte into any ring, at any time. */
static void store_anything(struct line *line)
{
	uint32_t value = draw() % 3 == 0 ? draw() : index_at(line, (int)(draw() % 4) * 4) + draw() % 4100 - 2050;

	switch (draw() % 4) {
	case 0:
		__atomic_store_n(line->head + CLI_LIVE + draw() % 4, (uint8_t)(draw() % 2 ? 1 : value), __ATOMIC_SEQ_CST);
		break;
	case 1:
		__atomic_store_n(line->ring[draw() & 1] + draw() % 1024, (uint8_t)value, __ATOMIC_SEQ_CST);
		break;
	default:
		__atomic_store_n((uint32_t *)(void *)line->head + draw() % 5, value, __ATOMIC_SEQ_CST);
	}
}

static void *store_on(void *context)
{
	struct hostile *hostile = context;

	while (!__atomic_load_n(&hostile->is_over, __ATOMIC_SEQ_CST))
		store_anything(hostile->line);
	return NULL;
}

/* One honest end beside stores of anything, made between its calls and by a thread of their own. It moves at
 * most one ring a call, and no more than it is asked; its own counts go on by just that, whatever the page says. */
static void beside_hostile(int left, int right, int calls)
{
	for (int who = 0; who < 2; who++) {
		struct line line;
		struct hostile hostile = { &line, false };
		struct vchan_page *end = &line.end[who];
		pthread_t thread;
		uint32_t own[2] = { 0, 0 }; /* of the ring that it writes, and of the one that it reads */

		lay(&line, zeros, left, right, 0);
		CHECK(!pthread_create(&thread, NULL, store_on, &hostile));
		for (int i = 0; i < calls; i++) {
			int act = i % 7, reads = act == 2 || act == 3 || act == 6, ring = reads || act == 4 ? who : !who;
			size_t size = (size_t)1 << (ring ? right : left), n = draw() % 3 ? draw() % 64 : draw() % (2 * size);
			uint8_t *data = calloc(1, n ? n : 1);
			int count;

			CHECK(data);
			store_anything(&line);
			count = act == 0   ? vchan_page_write(end, data, n)
				: act == 1 ? vchan_page_send(end, data, n)
				: act == 2 ? vchan_page_read(end, data, n)
				: act == 3 ? vchan_page_recv(end, data, n)
				: act == 4 ? vchan_page_data_ready(end)
				: act == 5 ? vchan_page_buffer_space(end)
					   : vchan_page_drain(end, data, n + 1 > n && n ? n : 1);
			CHECK(count == -1 ? errno == EPIPE : count >= 0 && (size_t)count <= size && (act == 4 || act == 5 || (size_t)count <= (n ? n : 1)));
			if (count > 0 && act != 4 && act != 5)
				own[reads] += (uint32_t)count;
			CHECK(end->end.numbers[2] == own[0] && end->end.numbers[3] == own[1]);
			while (vchan_page_take_event(&line.end[!who]) > 0)
				;
			free(data);
		}
		__atomic_store_n(&hostile.is_over, true, __ATOMIC_SEQ_CST);
		CHECK(!pthread_join(thread, NULL));
		clear(&line);
	}
}

/* Any 32 bytes for an end: what is told of them stays within their rings and what the call may move. */
static void any_bytes(int rounds)
{
	struct vchan_step step;
	int accepted = 0;

	for (int i = 0; i < rounds; i++) {
		struct vchan_end end;
		uint8_t bytes[sizeof end];
		uint16_t order[2];

		for (size_t k = 0; k < sizeof bytes; k++)
			bytes[k] = (uint8_t)draw();
		if (draw() % 8) { /* near to the numbers of an end */
			bytes[0] %= 2, bytes[1] %= 3, bytes[2] = (uint8_t)(10 + draw() % 11), bytes[3] = 0;
			bytes[4] = (uint8_t)(10 + draw() % 11), bytes[5] = 0, bytes[6] %= 41, bytes[7] %= 19;
			if (bytes[6] < 37)
				bytes[7] = 0, memset(bytes + 24, 0, 8);
			if (draw() % 2)
				memset(bytes + 20, 0, 4);
			if (draw() % 4 == 0)
				bytes[6] = 0, bytes[7] = 0, memset(bytes + 16, 0, 16);
		}
		memcpy(&end, bytes, sizeof end);
		memcpy(order, bytes + 2, sizeof order);
		if (vchan_end_begin(&end, (uint8_t)(draw() % 12), draw(), &step) != VCHAN_BEGUN && !vchan_end_took(&end, draw(), draw(), &step)) {
			CHECK(memcmp(&end, bytes, sizeof end) == 0);
			continue;
		}
		accepted++;
		CHECK(step.kind != VCHAN_FURTHER || step.moves || step.store_width || step.signals);
		if (step.moves)
			CHECK(step.ring < 2 && (uint64_t)step.place + step.first <= (uint64_t)1 << order[step.ring] && step.second <= step.place);
	}
	CHECK(accepted > rounds / 20);
}

static struct vchan_page *nested;

static bool call_again(void *context)
{
	uint8_t byte = 0;

	(void)context;
	CHECK(vchan_page_read(nested, &byte, 1) == -1 && errno == EBUSY);
	return true;
}

static bool wait_fails(void *context)
{
	(void)context;
	errno = EINTR;
	return false;
}

static struct vchan_page *writer;

static bool write_and_close(void *context)
{
	(void)context;
	CHECK(vchan_page_write(writer, "ab", 2) == 2 && vchan_page_close(writer) == 0);
	return true;
}

static bool notify_fails(void *context)
{
	(void)context;
	errno = EIO;
	return false;
}

#define REFUSES(call, why) CHECK((errno = 0, (call) == -1) && errno == (why))

/* What a caller can get wrong is answered, and changes nothing. */
static void misuse(void)
{
	struct line line;
	struct vchan_page page = { .with = { .front = NULL } }, before = page, *end;
	struct vchan_places places;
	struct vchan_setup other;
	uint8_t byte = 1, data[64];

	lay(&line, zeros, 11, 12, 0);
#define OPENS(change) \
	do { \
		struct vchan_setup with = setup_of(&line, 0, 0); \
\
		change; \
		REFUSES(vchan_page_open(&page, &with), EINVAL); \
		CHECK(memcmp(&page, &before, sizeof page) == 0); \
	} while (0)
	OPENS(with.front = NULL);
	OPENS(with.front = (struct vchan_front *)(void *)(line.head + 1));
	OPENS(with.left = NULL);
	OPENS(with.right = NULL);
	OPENS(with.notify = NULL);
	OPENS(with.right_order = 11);
	OPENS(with.left_order = 9);
	OPENS(with.right_order = 21);
	OPENS(with.left_order = 65536 + 11);
	OPENS(with.state = VCHAN_FRESH);
	OPENS(with.role = (enum vchan_role)2);
	OPENS(with.role = (enum vchan_role)257);
	OPENS((with.role = VCHAN_CLIENT, with.state = (enum vchan_state)3));
	OPENS(with.state = (enum vchan_state)257);
	OPENS((with.role = VCHAN_CLIENT, with.state = (enum vchan_state)258));
	/* rings on one another, and on the front */
	OPENS(with.right = with.left);
	OPENS(with.right = line.ring[0] + 2047);
	OPENS(with.left = line.ring[1] + 4095);
	OPENS(with.left = line.ring[1] - 2047);
	OPENS(with.left = line.head + HEAD_SIZE - 1);
	OPENS(with.right = line.head - 4095);
	OPENS(with.right = line.head);
	REFUSES(vchan_page_open(NULL, &(struct vchan_setup){ 0 }), EINVAL);
	REFUSES(vchan_page_open(&page, NULL), EINVAL);
	REFUSES(vchan_page_lay(NULL, 11, 12), EINVAL);
	REFUSES(vchan_page_lay((struct vchan_front *)(void *)line.head, 10, 10), EINVAL);
	REFUSES(vchan_page_places(11, 12, NULL), EINVAL);
	REFUSES(vchan_page_places(11, 11, &places), EINVAL);
	REFUSES(vchan_page_places(65546, 11, &places), EINVAL);
	CHECK(vchan_page_places(10, 11, &places) == 0 && places.left == 1024 && places.right == 2048 && places.size == 4096);
	CHECK(vchan_page_places(11, 12, &places) == 0 && places.left == 2048 && places.right == 4096 && places.size == 8192);
	CHECK(vchan_page_places(20, 13, &places) == 0 && places.left == 4096 && places.right == 4096 + (1 << 20) && places.size == places.right + 8192);

	/* an end that was never opened, and none */
	REFUSES(vchan_page_write(&page, &byte, 1), EBADF);
	REFUSES(vchan_page_read(NULL, &byte, 1), EINVAL);
	REFUSES(vchan_page_send_wait(NULL, &byte, 1), EINVAL);
	CHECK(vchan_page_is_open(&page) == 0 && vchan_page_is_open(NULL) == 0);

	/* no buffer, and lengths that are never moved */
	end = &line.end[0];
	REFUSES(vchan_page_write(end, NULL, 1), EINVAL);
	REFUSES(vchan_page_recv(end, NULL, 1), EINVAL);
	CHECK(vchan_page_write(end, NULL, 0) == 0 && vchan_page_recv(end, NULL, 0) == 0);
	REFUSES(vchan_page_send_wait(end, &byte, 4097), EMSGSIZE);
	REFUSES(vchan_page_recv_wait(end, &byte, 2049), EMSGSIZE);
	REFUSES(vchan_page_write_all(end, &byte, (size_t)1 << 31), EMSGSIZE);
	/* a size that 32 bits don't hold is no small one */
	CHECK(vchan_page_send(&line.end[1], data, ((size_t)1 << 32) + 5) == 0);

	/* waits that can't be, or fail */
	end->with.wait_for_event = NULL;
	REFUSES(vchan_page_read_wait(end, &byte, 1), EAGAIN);
	REFUSES(vchan_page_wait(end), EAGAIN);
	REFUSES(vchan_page_wait(NULL), EINVAL);
	end->with.wait_for_event = wait_fails;
	REFUSES(vchan_page_read_wait(end, &byte, 1), EINTR);
	REFUSES(vchan_page_wait(end), EINTR);

	/* a drain that waits: no byte is no end, and a peer's last bytes come before it */
	REFUSES(vchan_page_drain_wait(end, &byte, 1), EINTR);
	REFUSES(vchan_page_drain_wait(end, &byte, 0), EINVAL);
	end->with.wait_for_event = write_and_close;
	writer = &line.end[1];
	CHECK(vchan_page_drain_wait(end, data, sizeof data) == 2 && memcmp(data, "ab", 2) == 0);
	REFUSES(vchan_page_drain_wait(end, data, sizeof data), EPIPE);
	clear(&line);
	lay(&line, zeros, 11, 12, 0);

	/* a callback that makes a call of the end that is inside one */
	nested = end;
	end->with.take_event = call_again;
	CHECK(vchan_page_take_event(end) == 1);
	end->with.take_event = NULL;
	CHECK(vchan_page_take_event(end) == 0);

	/* a peer that can't be signalled: what was moved stays so, and the end is between two calls */
	end->with.notify = notify_fails;
	line.head[SRV_NOTIFY] = BIT_WRITTEN;
	REFUSES(vchan_page_write(end, "abc", 3), EIO);
	CHECK(line.head[SRV_NOTIFY] == 0 && index_at(&line, RIGHT_PROD) == 3 && vchan_page_write(end, "d", 1) == 1);
	end->with.notify = notify;
	CHECK(vchan_page_read(&line.end[1], data, sizeof data) == 4 && memcmp(data, "abcd", 4) == 0);

	/* a live byte that no honest peer stores */
	for (int live = 255; live >= 0; live--) {
		line.head[CLI_LIVE] = line.head[SRV_LIVE] = (uint8_t)live;
		CHECK(vchan_page_is_open(end) == (live == 2 ? 2 : live != 0) && vchan_page_is_open(&line.end[1]) == (live != 0));
	}
	line.head[CLI_LIVE] = line.head[SRV_LIVE] = 1;

	/* a client that says it has other rings than its page */
	other = setup_of(&line, 1, 0);
	other.right_order = 13, other.right = zeros(8192);
	CHECK(vchan_page_open(&page, &other) == 0);
	line.head[SRV_NOTIFY] = 0;
	REFUSES(vchan_page_connect(&page), EPROTO);
	CHECK(line.head[SRV_NOTIFY] == 0 && vchan_page_take_event(end) == 0);
	free(other.right);

	/* a server that stays open without a client, and one that doesn't */
	CHECK(vchan_page_close(&line.end[1]) == 0);
	REFUSES(vchan_page_close(&line.end[1]), ENOTCONN);
	REFUSES(vchan_page_write(end, &byte, 1), EPIPE);
	end->with.persists = true;
	CHECK(vchan_page_is_open(end) == 1 && vchan_page_write(end, &byte, 1) == 1 && vchan_page_read(end, &byte, 1) == 0);
	clear(&line);
}

static bool die(void *context)
{
	(void)context;
	raise(SIGKILL);
	return false;
}

/* An end in memory that two processes share goes on from what the other one did; a process that dies inside a call leaves
 * it there, and each later call says so. */
static void shared_end(void)
{
	struct vchan_page *end = shared(sizeof *end);
	struct line line;
	struct vchan_setup with;
	uint8_t data[8];
	pid_t child;
	int status;

	lay(&line, shared, 11, 12, 0);
	with = setup_of(&line, 0, 0);
	CHECK(vchan_page_open(end, &with) == 0 && vchan_page_write(end, "ab", 2) == 2);
	child = fork();
	if (!child) {
		vchan_page_write(end, "cd", 2);
		end->with.take_event = die;
		vchan_page_take_event(end);
		_exit(0);
	}
	CHECK(child > 0 && waitpid(child, &status, 0) == child && WIFSIGNALED(status));
	CHECK(vchan_page_read(&line.end[1], data, sizeof data) == 4 && !memcmp(data, "abcd", 4));
	REFUSES(vchan_page_write(end, "e", 1), EBUSY);
	REFUSES(vchan_page_close(end), EBUSY);
}

int main(void)
{
	misuse();
	shared_end();
	any_bytes(300000);
	for (size_t i = 0; i < PAIRS; i++) {
		int left = orders[i][0], right = orders[i][1];

		by_turns(left, right, left > 16 ? 200 : 4000);
		in_threads(left, right, (size_t)1 << 18);
		in_processes(left, right, (size_t)1 << 16);
		beside_hostile(left, right, 3000);
		printf("orders %d %d: by turns, in two threads, in two processes, beside stores of anything\n", left, right);
		fflush(stdout);
	}
	return 0;
}
