/*
 * Tries the sessions and decisions of c/qrexec.h: against rows of bytes and outcomes, against a session and rules by
 * hand on random messages and calls, and as calls over a page in memory (c/qrexec.c). README.md says what is compared.
 *
 *   sessions COUNT      plays so many rounds
 */
#include "../../../c/qrexec.h"
#include "../../../c/vchan_page.h"
#include <errno.h>
#include <pthread.h>
#include <semaphore.h>
#include <stdio.h>
#include <stdlib.h>
#include <string.h>

static uint64_t seed = 88172645463325252u;

static uint64_t any(uint64_t below)
{
	seed ^= seed << 13, seed ^= seed >> 7, seed ^= seed << 17;
	return seed % below;
}

static void check(bool holds, const char *what, int line)
{
	if (holds)
		return;
	fprintf(stderr, "%s, line %d\n", what, line);
	exit(1);
}
#define CHECK(holds) check(holds, #holds, __LINE__)

/* ---- rows: what a side of version 3 gets, and how it comes out. They are those of crates/tests_library. */

#define GREETING "000300000400000003000000"

static const struct row {
	uint32_t side;
	const char *bytes;
	uint32_t answer, fault, frame; /* the last answer, and the faults of the session and of its reader */
	uint64_t at;
	uint32_t kind;
	int32_t code;
} rows[] = {
	{QREXEC_SERVING, "9001000000000000", QREXEC_FAULTY, QREXEC_NOT_HELLO, 0, 0, 0x190, 0},
	{QREXEC_SERVING, "000300000400000002000000", QREXEC_LESS, 0, 0, 12, 0, 0},
	{QREXEC_SERVING, "000300000400000001000000", QREXEC_FAULTY, QREXEC_LOW_VERSION, 0, 0, 0x300, 0},
	{QREXEC_SERVING, GREETING "9101000000000000", QREXEC_FAULTY, QREXEC_WRONG_SIDE, 0, 12, 0x191, 0},
	{QREXEC_SERVING, GREETING "90010000000000009001000000000000", QREXEC_FAULTY, QREXEC_AFTER_END, 0, 20, 0x190, 0},
	{QREXEC_SERVING, GREETING "9001000001000100", QREXEC_FAULTY, 0, QREXEC_TOO_LONG, 12, 0x190, 0},
	{QREXEC_SERVING, GREETING "0004000000000000", QREXEC_FAULTY, 0, QREXEC_UNKNOWN_TYPE, 12, 0x400, 0},
	{QREXEC_CALLER, GREETING "9301000004000000ffffffff", QREXEC_OVER, 0, 0, 24, 0, -1},
	{QREXEC_CALLER, GREETING "92010000000000009101000000000000930100000400000000000000", QREXEC_OVER, 0, 0, 40, 0, 0},
	{QREXEC_CALLER, GREETING "9301000008000000", QREXEC_FAULTY, 0, QREXEC_BAD_LENGTH, 12, 0x193, 0},
	{QREXEC_CALLER, GREETING "93010000", QREXEC_LESS, 0, 0, 12, 0, 0},
	{QREXEC_CALLER, "9001000000000000", QREXEC_FAULTY, QREXEC_NOT_HELLO, 0, 0, 0x190, 0},
	{QREXEC_CALLER, "000300000400000001000000", QREXEC_FAULTY, QREXEC_LOW_VERSION, 0, 0, 0x300, 0},
	{QREXEC_CALLER, GREETING "9001000000000000", QREXEC_FAULTY, QREXEC_WRONG_SIDE, 0, 12, 0x190, 0},
	{QREXEC_CALLER, GREETING "9101000000000000910100000100000061", QREXEC_FAULTY, QREXEC_AFTER_END, 0, 20, 0x191, 0},
};

/* The row's bytes come in pieces of this size. */
static void play_row(const struct row *row, size_t size)
{
	struct qrexec_session session, before;
	struct qrexec_found found;
	size_t len = strlen(row->bytes) / 2, at = 0;
	uint32_t answer = QREXEC_LESS;

	CHECK(qrexec_session_init(&session, row->side, 3));
	for (size_t end = size; end < len + size; end += size) {
		size_t have = end < len ? end : len;
		uint8_t *bytes = malloc(have - at);

		for (size_t i = at; i < have; i++) {
			unsigned byte;
			CHECK(sscanf(row->bytes + 2 * i, "%2x", &byte) == 1);
			bytes[i - at] = (uint8_t)byte;
		}
		size_t from = at;
		while ((answer = qrexec_session_next(&session, bytes + (at - from), have - at, &found)) == QREXEC_FOUND)
			at += 8 + found.len;
		free(bytes);
	}
	before = session;
	CHECK(answer == row->answer && session.fault == row->fault && session.reader.fault == row->frame);
	CHECK(session.reader.at == row->at && session.code == row->code);
	if (answer == QREXEC_FAULTY)
		CHECK(session.reader.kind == row->kind);
	if (answer != QREXEC_LESS)
		CHECK(qrexec_session_next(&session, (const uint8_t *)GREETING, 12, &found) == answer);
	CHECK(!memcmp(&session, &before, sizeof session));
}

/* ---- a session by hand, held against the proved one on random messages */

struct by_hand {
	bool serves, greeted, over, bad, ended[3];
	uint32_t own, version;
};

static uint32_t heard(struct by_hand *side, uint32_t kind, uint32_t len, uint32_t first)
{
	if (!side->version) {
		if (kind != QREXEC_HELLO)
			return QREXEC_NOT_HELLO;
		if (first < 2)
			return QREXEC_LOW_VERSION;
		side->version = first < side->own ? first : side->own;
		return 0;
	}
	if (!side->serves && kind == QREXEC_EXIT_CODE)
		return side->over = true, 0;
	if (side->serves ? kind != QREXEC_STDIN : kind != QREXEC_STDOUT && kind != QREXEC_STDERR)
		return QREXEC_WRONG_SIDE;
	if (side->ended[kind - QREXEC_STDIN])
		return QREXEC_AFTER_END;
	side->ended[kind - QREXEC_STDIN] = !len;
	return 0;
}

static bool may_send(struct by_hand *side, uint32_t kind, uint32_t len)
{
	if (side->bad || (side->over && !side->serves))
		return false;
	if (!side->greeted)
		return kind == QREXEC_HELLO && len == 4 && (!side->serves || side->version);
	if (!side->version)
		return false;
	if (side->serves && kind == QREXEC_EXIT_CODE)
		return len == 4 && side->ended[1] && side->ended[2] && !side->over;
	if (side->serves ? kind != QREXEC_STDOUT && kind != QREXEC_STDERR : kind != QREXEC_STDIN)
		return false;
	return !side->ended[kind - QREXEC_STDIN] && len <= (side->version == 2 ? 4096 : 65536);
}

static void sent(struct by_hand *side, uint32_t kind, uint32_t len)
{
	if (!side->greeted)
		side->greeted = true;
	else if (kind == QREXEC_EXIT_CODE)
		side->over = true;
	else
		side->ended[kind - QREXEC_STDIN] = !len;
}

static size_t met[8];

static void play_messages(void)
{
	static const uint32_t kinds[] = {QREXEC_STDIN, QREXEC_STDOUT, QREXEC_STDERR, QREXEC_EXIT_CODE, QREXEC_HELLO};
	struct by_hand side = {.serves = any(2), .own = 2 + any(2)};
	struct qrexec_session session, before;
	uint64_t at = 0;

	CHECK(!qrexec_session_init(&session, 2, 3) && !qrexec_session_init(&session, 0, 4) && !qrexec_session_init(&session, 0, 1));
	CHECK(qrexec_session_init(&session, side.serves, side.own));
	for (int count = 0; count < 12; count++) {
		uint32_t kind = count || !any(8) ? kinds[any(5)] : QREXEC_HELLO, len = any(3) ? any(20) : 0, fault;
		uint8_t out[64] = {0}, *bytes;
		struct qrexec_found found;
		size_t size;

		/* a message that goes, or one that may not */
		for (int i = 0; i < 3; i++) {
			uint32_t goes = kinds[any(5)], with = goes >= QREXEC_EXIT_CODE && any(9) ? 4 : any(2) ? any(5) : any(2) ? 4095 + any(3) : 65535 + any(3);
			bool may = may_send(&side, goes, with);

			before = session;
			CHECK(qrexec_session_may_send(&session, goes, with) == may);
			CHECK(qrexec_session_sent(&session, goes, with) == may);
			if (may)
				sent(&side, goes, with), met[4]++;
			else
				CHECK(!memcmp(&session, &before, sizeof session));
		}
		if (kind == QREXEC_HELLO)
			size = qrexec_put_hello(out, sizeof out, any(8) ? 2 + any(3) : any(2));
		else if (kind == QREXEC_EXIT_CODE)
			size = qrexec_put_exit_code(out, sizeof out, (int32_t)any(1u << 31) - (1 << 30));
		else
			size = (kind == QREXEC_STDIN ? qrexec_put_stdin : kind == QREXEC_STDOUT ? qrexec_put_stdout : qrexec_put_stderr)(out, sizeof out, out + 30, len);
		bytes = malloc(size);
		memcpy(bytes, out, size);
		before = session;
		for (size_t less = any(4) ? size : 0; less < size; less++)
			CHECK(qrexec_session_next(&session, bytes, less, &found) == (side.bad ? QREXEC_FAULTY : side.over && !side.serves ? QREXEC_OVER : QREXEC_LESS));
		CHECK(!memcmp(&session, &before, sizeof session));
		if (side.bad || (side.over && !side.serves)) {
			CHECK(qrexec_session_next(&session, bytes, size, &found) == (side.bad ? QREXEC_FAULTY : QREXEC_OVER));
			CHECK(!memcmp(&session, &before, sizeof session));
			free(bytes);
			return;
		}
		fault = heard(&side, kind, (uint32_t)size - 8, out[8] | (uint32_t)out[9] << 8 | (uint32_t)out[10] << 16 | (uint32_t)out[11] << 24);
		side.bad = fault, met[fault]++;
		CHECK(qrexec_session_next(&session, bytes, size, &found) == (fault ? QREXEC_FAULTY : QREXEC_FOUND));
		CHECK(session.fault == fault && (fault ? session.reader.at == at && session.reader.kind == kind : session.reader.at == at + size));
		if (!fault)
			CHECK(found.kind == kind && found.len == size - 8);
		if (!side.serves && side.over)
			CHECK(session.exited == 1 && !memcmp(&session.code, bytes + 8, 4));
		CHECK(fault == QREXEC_LOW_VERSION || session.version == side.version);
		CHECK(session.stdin_ended == side.ended[0] && session.stdout_ended == side.ended[1] && session.stderr_ended == side.ended[2]);
		at += size;
		free(bytes);
	}
}

/* Any bits are a session, or are refused and stay. */
static void play_bits(void)
{
	struct qrexec_session session, before;
	struct qrexec_found found;
	uint8_t bytes[16] = {0x90, 1, 0, 0, 3};

	for (size_t i = 0; i < sizeof session; i++)
		((uint8_t *)&session)[i] = i % 4 || any(8) ? 0 : any(any(2) ? 6 : 256);
	session.reader.channel = any(8) ? QREXEC_DATA : any(3), session.own = any(8) ? 2 + any(2) : any(5), session.version = any(4);
	before = session;
	if (qrexec_session_next(&session, bytes, any(17), &found) == QREXEC_REFUSED)
		CHECK(!memcmp(&session, &before, sizeof session) && !qrexec_session_may_send(&session, QREXEC_HELLO, 4)), met[5]++;
	else
		met[6]++;
}

/* The decisions on calls of one pair, against the broker's rules by hand. */
static void play_pair(void)
{
	struct qrexec_pair pair = {{0}, 0, 0}, before;
	uint32_t from = 1 + any(5), to = 1 + (from + any(4)) % 5, pages = any(60), told = 0, first = from < to ? 513 : 514;

	for (int count = 0; count < 80; count++) {
		bool dropped = !any(20);
		uint32_t want = dropped ? QREXEC_TARGET_DROPPED : pair.live_count == 16 ? QREXEC_PAIR_FULL :
				pair.calls >= pages ? QREXEC_PORTS_SPENT : QREXEC_ACCEPTED;

		before = pair;
		CHECK(qrexec_pair_call(&pair, from, to, pages, dropped, &told) == want);
		if (want == QREXEC_PAIR_FULL)
			CHECK(told == 16);
		if (want == QREXEC_PORTS_SPENT || want == QREXEC_ACCEPTED)
			CHECK(told == first + 2 * before.calls);
		if (want == QREXEC_ACCEPTED) {
			CHECK(pair.calls == before.calls + 1 && pair.live_count == before.live_count + 1 && pair.live[before.live_count] == told);
			CHECK(!memcmp(pair.live, before.live, before.live_count * sizeof *pair.live));
		} else
			CHECK(!memcmp(&pair, &before, sizeof pair));
		for (; pair.live_count && !any(3); pair.live_count--) { /* a call ends */
			uint32_t at = any(pair.live_count);
			memmove(pair.live + at, pair.live + at + 1, (pair.live_count - at - 1) * sizeof *pair.live);
		}
	}
	pair.live_count = 17, before = pair;
	CHECK(qrexec_pair_call(&pair, from, to, pages, 0, &told) == QREXEC_NO_PAIR && !memcmp(&pair, &before, sizeof pair));
	pair.live_count = 1, pair.calls = 65537;
	CHECK(qrexec_pair_call(&pair, from, to, UINT32_MAX, 0, &told) == QREXEC_NO_PAIR);
}

/* ---- calls over a page in memory */

enum { ORDER = 12 };

static struct end {
	struct vchan_page page;
	struct qrexec_call call;
	sem_t event, *peer;
} ends[2];
static char page[4096], left[1 << ORDER], right[1 << (ORDER + 1)];

static bool notify(void *context) { return !sem_post(((struct end *)context)->peer); }
static bool wait_for_event(void *context) { return !sem_wait(&((struct end *)context)->event); }

static void open_ends(bool waits, uint32_t caller, uint32_t serving)
{
	memset(page, 0, sizeof page);
	CHECK(!vchan_page_lay((struct vchan_front *)page, ORDER, ORDER + 1));
	for (int i = 0; i < 2; i++) {
		sem_init(&ends[i].event, 0, 0);
		ends[i].peer = &ends[!i].event;
	}
	for (int i = 0; i < 2; i++) {
		struct vchan_setup with = {
			.role = i ? VCHAN_SERVER : VCHAN_CLIENT, .state = i ? VCHAN_OPEN : VCHAN_FRESH, .front = (struct vchan_front *)page,
			.left = left, .right = right, .left_order = ORDER, .right_order = ORDER + 1, .notify = notify,
			.wait_for_event = waits ? wait_for_event : NULL, .context = &ends[i],
		};
		CHECK(!vchan_page_open(&ends[i].page, &with));
	}
	CHECK(!vchan_page_connect(&ends[0].page));
	CHECK(qrexec_call_open(&ends[0].call, &ends[0].page, 2, 3) == -1 && errno == EINVAL);
	CHECK(!qrexec_call_open(&ends[0].call, &ends[0].page, QREXEC_CALLER, caller));
	CHECK(!qrexec_call_open(&ends[1].call, &ends[1].page, QREXEC_SERVING, serving));
}

static uint8_t input[300000], answered[300000];
static size_t input_len, largest;

/* Serves the call: the input goes back as output, then some errors and the code. */
static void *serve(void *unused)
{
	struct qrexec_call *call = &ends[1].call;
	struct qrexec_found found;
	const uint8_t *body;
	int32_t code = -77777;

	(void)unused;
	for (;;) {
		CHECK(qrexec_call_read(call, &found, &body) == 1);
		if (found.kind == QREXEC_HELLO)
			continue;
		CHECK(found.kind == QREXEC_STDIN);
		largest = found.len > largest ? found.len : largest;
		CHECK(qrexec_call_write(call, QREXEC_STDOUT, body, found.len) == (int)found.len);
		if (!found.len)
			break;
	}
	CHECK(qrexec_call_write(call, QREXEC_EXIT_CODE, &code, sizeof code) == -1 && errno == EPERM);
	CHECK(qrexec_call_write(call, QREXEC_STDERR, "problem", 7) == 7);
	CHECK(!qrexec_call_write(call, QREXEC_STDERR, NULL, 0));
	CHECK(qrexec_call_write(call, QREXEC_EXIT_CODE, &code, 3) == -1 && errno == EINVAL);
	CHECK(qrexec_call_write(call, QREXEC_EXIT_CODE, &code, sizeof code) == sizeof code);
	CHECK(!qrexec_call_close(call));
	return NULL;
}

/* A call whose calls wait: the caller sends a part, and then reads as much as it sent. */
static void play_waiting(uint32_t caller, uint32_t serving)
{
	struct qrexec_call *call = &ends[0].call;
	struct qrexec_found found;
	const uint8_t *body;
	size_t back = 0, sent = 0, limit = caller < 3 || serving < 3 ? 4096 : 65536;
	bool problem = false, ended = false;
	pthread_t thread;

	open_ends(true, caller, serving);
	input_len = any(200000), largest = 0;
	for (size_t i = 0; i < input_len; i++)
		input[i] = (uint8_t)any(256);
	CHECK(!pthread_create(&thread, NULL, serve, NULL));
	for (;;) {
		size_t part = 1 + any(any(2) ? 100 : 100000);

		part = part < input_len - sent ? part : input_len - sent;
		if (part || !ended) {
			/* A message is answered before the next one goes, so that neither side waits for the other. */
			part = part < limit ? part : limit;
			CHECK(qrexec_call_write(call, QREXEC_STDIN, input + sent, part) == (int)part);
			sent += part, ended = !part;
		}
		do {
			CHECK(qrexec_call_read(call, &found, &body) == 1);
			if (found.kind == QREXEC_STDOUT)
				CHECK(found.len <= limit), memcpy(answered + back, body, found.len), back += found.len;
			else if (found.kind == QREXEC_STDERR && found.len)
				problem = found.len == 7 && !memcmp(body, "problem", 7);
		} while ((back < sent || ended) && found.kind != QREXEC_EXIT_CODE);
		if (found.kind == QREXEC_EXIT_CODE)
			break;
	}
	CHECK(problem && back == input_len && !memcmp(input, answered, back) && call->session.code == -77777);
	CHECK(qrexec_call_read(call, &found, &body) == -1 && errno == ESHUTDOWN);
	CHECK(!qrexec_call_close(call));
	pthread_join(thread, NULL);
}

/* The greatest message of a version goes as one, and a longer one as two. */
static void play_chunks(uint32_t version)
{
	size_t most = version < 3 ? 4096 : 65536;
	struct qrexec_found found;
	const uint8_t *body;
	int taken;

	open_ends(false, version, 3);
	CHECK(qrexec_call_write(&ends[0].call, QREXEC_STDIN, input, 5) == -1 && errno == EAGAIN);
	CHECK(qrexec_call_read(&ends[1].call, &found, &body) == 1 && found.kind == QREXEC_HELLO && body[0] == version);
	CHECK(qrexec_call_flush(&ends[1].call) == 1);
	for (size_t i = 0; i < most + 1; i++)
		input[i] = (uint8_t)any(256);
	taken = qrexec_call_write(&ends[0].call, QREXEC_STDIN, input, most + 1);
	CHECK(taken == (int)most);
	while (!qrexec_call_read(&ends[1].call, &found, &body))
		CHECK(qrexec_call_flush(&ends[0].call) >= 0);
	CHECK(found.kind == QREXEC_STDIN && found.len == most && !memcmp(body, input, most));
	CHECK(qrexec_call_write(&ends[0].call, QREXEC_STDIN, input + most, 1) == 1);
	CHECK(qrexec_call_read(&ends[1].call, &found, &body) == 1 && found.len == 1 && body[0] == input[most]);
	CHECK(qrexec_call_write(&ends[0].call, QREXEC_STDOUT, input, 1) == -1 && errno == EPERM);
}

/* A fault of the other side is told at each call, and nothing more is sent; so is an end. */
static void play_fault(void)
{
	static const uint8_t bad[] = {0x91, 1, 0, 0, 0, 0, 0, 0};
	struct qrexec_found found;
	const uint8_t *body;

	open_ends(false, 3, 3);
	CHECK(qrexec_call_read(&ends[1].call, &found, &body) == 1 && qrexec_call_flush(&ends[1].call) == 1);
	CHECK(vchan_page_write(&ends[0].page, bad, sizeof bad) == sizeof bad);
	for (int i = 0; i < 3; i++)
		CHECK(qrexec_call_read(&ends[1].call, &found, &body) == -1 && errno == EPROTO);
	CHECK(ends[1].call.session.fault == QREXEC_WRONG_SIDE && ends[1].call.session.reader.at == 12);
	CHECK(qrexec_call_write(&ends[1].call, QREXEC_STDOUT, "x", 1) == -1 && errno == EPROTO);
	CHECK(!qrexec_call_close(&ends[1].call));
	CHECK(qrexec_call_read(&ends[0].call, &found, &body) == 1 && found.kind == QREXEC_HELLO);
	CHECK(qrexec_call_read(&ends[0].call, &found, &body) == -1 && errno == EPIPE);
}

int main(int words, char **word)
{
	int count = words > 1 ? atoi(word[1]) : 1000;

	for (size_t i = 0; i < sizeof rows / sizeof *rows; i++)
		for (size_t size = 1; size < 60; size += 1 + size / 4)
			play_row(&rows[i], size);
	for (int i = 0; i < count; i++) {
		play_messages();
		play_bits();
	}
	for (int i = 0; i < count / 10 + 1; i++)
		play_pair();
	for (int i = 0; i < 7 && count >= 1000; i++)
		CHECK(met[i]);
	for (uint32_t version = 2; version <= 3; version++) {
		play_chunks(version);
		for (int i = 0; i < 4; i++)
			play_waiting(2 + any(2), version);
	}
	play_fault();
	return 0;
}
