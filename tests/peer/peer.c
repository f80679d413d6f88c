/*
 * Plays step scripts by the system's own libxenvchan, in one process and with no hypervisor.
 *
 * Standard input has scripts one after another, each from its line `open L R` on. For each line of a
 * script that makes a call it prints what the library returned:
 *
 *     E CALL RETURN                     of ready, space and event
 *     E CALL RETURN PROD CONS BYTES     of write, send, read and recv
 *     E close
 *
 * PROD and CONS are the indices of the ring in which the call moved bytes, as the page has them after
 * the call, and BYTES are those that a read or recv got. `head` and `image` print bytes of the page. After
 * each script come the two lines of lengths of `vchan step`, and a line `end`.
 *
 * The library uses grants, event channels and the xenstore by functions of other libraries. stand_ins.c
 * has these functions too, and the linker finds them there first. The library itself is the system's, and
 * only its public header is used.
 */
#include "stand_ins.h"
#include <stdio.h>
#include <stdlib.h>
#include <string.h>

#define LEAST_ORDER 10
#define LEAST_ORDER_OUTSIDE 12
#define OFFSET_OF_ORDER_10 1024

struct end {
	const char *name;
	enum who who;
	/* NULL before the end is there, and once it has closed. */
	struct libxenvchan *vchan;
	uint64_t sent, got;
};

static struct end server = { .name = "server", .who = SERVER };
static struct end client = { .name = "client", .who = CLIENT };
static uint8_t *left_ring, *right_ring;
static uint8_t data[2 * GREATEST_RING];

static void fail(const char *why)
{
	fflush(stdout);
	fprintf(stderr, "peer: %s\n", why);
	exit(1);
}

/* A page with two ends. */

static void close_end(struct end *end)
{
	if (end->vchan)
		libxenvchan_close(end->vchan);
	end->vchan = NULL;
}

/* The library never chooses order 10 beside one of 12 or more, though its client takes them. */
static void lay_order_10(struct libxenvchan_ring *ring, uint16_t *order)
{
	ring->order = *order = LEAST_ORDER;
	ring->buffer = page.bytes + OFFSET_OF_ORDER_10;
}

static void open_server(int left, int right)
{
	struct vchan_interface *header = &page.header;

	make_next(SERVER);
	server.vchan = libxenvchan_server_init(NULL, 0, "/local", (size_t)1 << left, (size_t)1 << right);
	if (!server.vchan)
		fail("the library made no server");
	if (left == LEAST_ORDER && right >= LEAST_ORDER_OUTSIDE)
		lay_order_10(&server.vchan->read, &header->left_order);
	if (right == LEAST_ORDER && left >= LEAST_ORDER_OUTSIDE)
		lay_order_10(&server.vchan->write, &header->right_order);
	if (header->left_order != left || header->right_order != right)
		fail("the library chose other orders");
	if (server.vchan->read.order != left || server.vchan->write.order != right)
		fail("the library holds other orders than it laid");
	left_ring = server.vchan->read.buffer;
	right_ring = server.vchan->write.buffer;
}

static void open_client(void)
{
	make_next(CLIENT);
	client.vchan = libxenvchan_client_init(NULL, 0, "/local");
	if (!client.vchan)
		fail("the library made no client");
	if (client.vchan->write.buffer != left_ring || client.vchan->read.buffer != right_ring)
		fail("the two ends have other rings");
}

/*
 * Lays a page and connects its client. Then the grants are mapped, so their list is blanked, as an image
 * of `vchan step` has it; and the signal by which a client connects is taken.
 */
static void open_page(int left, int right)
{
	memset(&page, 0, sizeof page);
	memset(granted, 0, ((size_t)1 << left) + ((size_t)1 << right));
	open_server(left, right);
	open_client();
	memset(page.bytes + HEAD_SIZE, 0, sizeof page - HEAD_SIZE);
	server.vchan->blocking = client.vchan->blocking = 0;
	take_signal(SERVER);
	take_signal(CLIENT);
	server.sent = server.got = client.sent = client.got = 0;
}

static void set_indices(uint32_t start)
{
	struct vchan_interface *header = &page.header;

	header->left.cons = header->left.prod = header->right.cons = header->right.prod = start;
}

static void end_script(void)
{
	close_end(&client);
	close_end(&server);
	printf("left sent %lu got %lu\nright sent %lu got %lu\nend\n", client.sent, server.got, server.sent,
	       client.got);
	fflush(stdout);
}

/* Every function that stands in has to be the one that the library calls. */
static void check_stand_ins(void)
{
	open_page(LEAST_ORDER_OUTSIDE, LEAST_ORDER_OUTSIDE);
	libxenvchan_write(client.vchan, "a", 1);
	libxenvchan_wait(server.vchan);
	close_end(&client);
	close_end(&server);
	check_reached();
}

/* Lines of a script. They are those that tests/peer/run draws, so a line that isn't one ends the run. */

static uint64_t number(const char *word)
{
	char *rest = NULL;
	uint64_t value = word ? strtoull(word, &rest, 10) : 0;

	if (!word || rest == word)
		fail("a number is missing");
	return value;
}

static uint8_t byte(const char *digits)
{
	char pair[] = { digits[0], digits[1], 0 };

	return strtoul(pair, NULL, 16);
}

/* Puts a word's bytes into `data`, and gives their number. */
static size_t bytes(const char *word)
{
	size_t length = word ? strlen(word) : 0;

	if (length > 3 && word[2] == '*') {
		size_t count = number(word + 3);

		if (count > sizeof data)
			fail("too many bytes");
		memset(data, byte(word), count);
		return count;
	}
	if (length == 1)
		return 0;
	for (size_t i = 0; i < length / 2; i++)
		data[i] = byte(word + 2 * i);
	return length / 2;
}

static void print_bytes(const uint8_t *from, size_t count)
{
	static const char digits[] = "0123456789abcdef";

	if (count == 0)
		putchar('-');
	for (size_t i = 0; i < count; i++) {
		putchar_unlocked(digits[from[i] >> 4]);
		putchar_unlocked(digits[from[i] & 15]);
	}
	putchar('\n');
}

static void print_move(const struct end *end, const char *call, int moved, const struct libxenvchan_ring *ring)
{
	printf("%s %s %d %u %u ", end->name, call, moved, ring->shr->prod, ring->shr->cons);
}

static void move_out(struct end *end, const char *call, const char *word)
{
	size_t count = bytes(word);
	int moved = strcmp(call, "send") == 0 ? libxenvchan_send(end->vchan, data, count)
					      : libxenvchan_write(end->vchan, data, count);

	if (moved > 0)
		end->sent += moved;
	print_move(end, call, moved, &end->vchan->write);
	print_bytes(NULL, 0);
}

/* The library never gets more than a ring holds, whatever number it is asked for. */
static void move_in(struct end *end, const char *call, const char *word)
{
	size_t most = number(word);
	int moved = strcmp(call, "recv") == 0 ? libxenvchan_recv(end->vchan, data, most)
					      : libxenvchan_read(end->vchan, data, most);

	if (moved > 0)
		end->got += moved;
	print_move(end, call, moved, &end->vchan->read);
	print_bytes(data, moved > 0 ? moved : 0);
}

static const struct field {
	const char *name;
	size_t offset, width;
} fields[] = {
	{ "left_cons", offsetof(struct vchan_interface, left.cons), 4 },
	{ "left_prod", offsetof(struct vchan_interface, left.prod), 4 },
	{ "right_cons", offsetof(struct vchan_interface, right.cons), 4 },
	{ "right_prod", offsetof(struct vchan_interface, right.prod), 4 },
	{ "left_order", offsetof(struct vchan_interface, left_order), 2 },
	{ "right_order", offsetof(struct vchan_interface, right_order), 2 },
	{ "cli_live", offsetof(struct vchan_interface, cli_live), 1 },
	{ "srv_live", offsetof(struct vchan_interface, srv_live), 1 },
	{ "cli_notify", offsetof(struct vchan_interface, cli_notify), 1 },
	{ "srv_notify", offsetof(struct vchan_interface, srv_notify), 1 },
};

/* Stores the low bits of a value that a field of the page, or a byte of a ring, has room for. */
static void poke(const char *word, uint64_t value)
{
	size_t place;

	if (!word)
		fail("a poke of no word");
	if (sscanf(word, "left[%zu]", &place) == 1) {
		left_ring[place] = value;
		return;
	}
	if (sscanf(word, "right[%zu]", &place) == 1) {
		right_ring[place] = value;
		return;
	}
	for (size_t i = 0; i < sizeof fields / sizeof *fields; i++) {
		if (strcmp(word, fields[i].name) == 0) {
			memcpy(page.bytes + fields[i].offset, &value, fields[i].width);
			return;
		}
	}
	fail("no word of a page");
}

static void make_call(struct end *end, const char *call, const char *word)
{
	if (!end->vchan)
		fail("a call of an end that has closed");
	if (strcmp(call, "write") == 0 || strcmp(call, "send") == 0) {
		move_out(end, call, word);
	} else if (strcmp(call, "read") == 0 || strcmp(call, "recv") == 0) {
		move_in(end, call, word);
	} else if (strcmp(call, "ready") == 0) {
		printf("%s ready %d\n", end->name, libxenvchan_data_ready(end->vchan));
	} else if (strcmp(call, "space") == 0) {
		printf("%s space %d\n", end->name, libxenvchan_buffer_space(end->vchan));
	} else if (strcmp(call, "event") == 0) {
		printf("%s event %d\n", end->name, libxenvchan_wait(end->vchan));
	} else if (strcmp(call, "close") == 0) {
		close_end(end);
		printf("%s close\n", end->name);
	} else {
		fail("no call of the library");
	}
}

static void play_end(struct end *end)
{
	const char *act = strtok(NULL, " ");
	const char *word = strtok(NULL, " ");

	if (!act)
		fail("a line without an act");
	if (strcmp(act, "signal") == 0)
		give_signal(!end->who);
	else if (strcmp(act, "poke") == 0)
		poke(word, number(strtok(NULL, " ")));
	else
		make_call(end, act, word);
}

static void play_line(char *line)
{
	const char *first = strtok(line, " ");

	if (!first)
		fail("an empty line");
	if (strcmp(first, "client") == 0)
		play_end(&client);
	else if (strcmp(first, "server") == 0)
		play_end(&server);
	else if (strcmp(first, "start") == 0)
		set_indices(number(strtok(NULL, " ")));
	else if (strcmp(first, "head") == 0) {
		printf("head ");
		print_bytes(page.bytes, HEAD_SIZE);
	} else if (strcmp(first, "image") == 0) {
		printf("image ");
		print_bytes(page.bytes, PAGE_SIZE);
	} else {
		fail("no line of a script");
	}
}

int main(void)
{
	char *line = NULL;
	size_t room = 0;
	ssize_t length;
	bool is_open = false;
	int left, right;

	begin_stand_ins(false);
	check_stand_ins();
	while ((length = getline(&line, &room, stdin)) > 0) {
		if (line[length - 1] == '\n')
			line[length - 1] = 0;
		if (sscanf(line, "open %d %d", &left, &right) != 2) {
			if (!is_open)
				fail("a script opens a page first");
			play_line(line);
			continue;
		}
		if (is_open)
			end_script();
		open_page(left, right);
		is_open = true;
	}
	if (is_open)
		end_script();
	free(line);
	return 0;
}
