/*
 * Holds the readers and writers of c/qrexec.h against a parser by hand (by_hand.c), on random and mutated streams that
 * are cut at random places. README.md says what is compared.
 *
 *   streams COUNT             plays so many rounds
 *   streams SECONDS seconds   plays rounds for so long, each time from another seed
 *   streams stream CHANNEL N  prints the N-th stream in hexadecimal, in pieces, as `vchan decode` takes it
 *   streams lines CHANNEL N   prints the lines that `vchan decode` should print of it, as qrexec_next reads it
 *   streams lines CHANNEL     prints these lines of the bytes of standard input
 */
#include "by_hand.h"
#include <stdio.h>
#include <stdlib.h>
#include <string.h>
#include <time.h>

#define MOST 8192

static uint64_t seed = 88172645463325252u;
static size_t found_kinds[0x301], found_faults[2][5];

static uint64_t any(uint64_t below)
{
	seed ^= seed << 13, seed ^= seed >> 7, seed ^= seed << 17;
	return seed % below;
}

static void check(bool holds, const char *what, int line)
{
	if (holds)
		return;
	fprintf(stderr, "%s, line %d\n", what, line);
	exit(1);
}
#define CHECK(holds) check(holds, #holds, __LINE__)

static const uint32_t kinds[2][8] = {
	{QREXEC_EXEC, QREXEC_JUST_EXEC, QREXEC_CONNECT, QREXEC_REFUSED_CALL, QREXEC_TRIGGER, QREXEC_TERMINATED, QREXEC_TRIGGER3, QREXEC_HELLO},
	{QREXEC_STDIN, QREXEC_STDOUT, QREXEC_STDERR, QREXEC_EXIT_CODE, QREXEC_HELLO, QREXEC_STDIN, QREXEC_STDOUT, QREXEC_STDERR},
};

static void put_number(uint8_t *p, uint32_t n)
{
	p[0] = n, p[1] = n >> 8, p[2] = n >> 16, p[3] = n >> 24;
}

static uint32_t some_length(uint32_t kind)
{
	switch (kind) {
	case QREXEC_EXIT_CODE: case QREXEC_HELLO: return 4;
	case QREXEC_CONNECT: return 40;
	case QREXEC_REFUSED_CALL: return 32;
	case QREXEC_TRIGGER: return 128;
	case QREXEC_TERMINATED: return 8;
	case QREXEC_TRIGGER3: return 97 + any(any(8) ? 31 : 300);
	case QREXEC_EXEC: case QREXEC_JUST_EXEC: return 9 + any(any(8) ? 100 : 300);
	default: return any(4) ? any(40) : any(300);
	}
}

/* Some messages, of which a few have a wrong type, length or end; and of all bytes a few are others. */
static size_t some_stream(uint8_t *p, int channel)
{
	size_t len = 0;

	for (int left = 1 + any(6); left; left--) {
		uint32_t kind = kinds[channel][any(8)], size = some_length(kind);
		bool line = kind == QREXEC_EXEC || kind == QREXEC_JUST_EXEC || kind == QREXEC_TRIGGER3;

		put_number(p + len, any(60) ? kind : kind ^ 1u << any(32));
		put_number(p + len + 4, !any(60) ? 65530 + any(12) : !any(30) ? size + any(3) - 1 : size);
		for (uint32_t i = 0; i < size; i++)
			p[len + 8 + i] = any(8) ? 'a' + any(26) : any(3) ? 0 : any(256);
		if (line && any(20))
			p[len + 8 + size - 1] = 0;
		len += 8 + size;
	}
	if (!any(4))
		p[any(len)] = any(256);
	return any(3) ? len : len - any(len);
}

static uint8_t *own(const uint8_t *bytes, size_t len)
{
	/* A block of its very size, so that AddressSanitizer sees a byte outside. */
	uint8_t *block = malloc(len ? len : 1);

	memcpy(block, bytes, len);
	return block;
}

static bool same_found(const struct qrexec_found *a, const struct qrexec_found *b)
{
	return !memcmp(a, b, sizeof *a);
}

static bool same_reader(const struct qrexec_reader *a, const struct qrexec_reader *b)
{
	return !memcmp(a, b, sizeof *a);
}

/* The bytes come in pieces; what is left is offered again with each. */
static void play_next(const uint8_t *stream, size_t len, int channel)
{
	struct qrexec_reader reader, hand;
	size_t at = 0, have = 0;
	uint32_t answer = 0;

	CHECK(qrexec_reader_init(&reader, channel));
	hand = reader;
	do {
		uint8_t *block;

		have += have < len ? 1 + any(len - have) : 0;
		do {
			struct qrexec_found found, expected;

			memset(&found, 0x55, sizeof found), expected = found;
			block = own(stream + at, have - at);
			answer = qrexec_next(&reader, have == at ? NULL : block, have - at, &found);
			CHECK(answer == by_hand(&hand, block, have - at, &expected));
			free(block);
			CHECK(same_found(&found, &expected));
			CHECK(same_reader(&reader, &hand));
			if (answer == QREXEC_FOUND)
				at += 8 + found.len, found_kinds[found.kind]++;
		} while (answer == QREXEC_FOUND);
	} while (answer == QREXEC_LESS && have < len);
	CHECK(reader.at == at);
	found_faults[channel][reader.fault]++;
	if (answer == QREXEC_FAULTY) {
		static const uint8_t greeting[12] = {0, 3, 0, 0, 4, 0, 0, 0, 3, 0, 0, 0};
		struct qrexec_found found;

		/* Whatever comes now, it is the same fault. */
		CHECK(qrexec_next(&reader, greeting, sizeof greeting, &found) == QREXEC_FAULTY);
		CHECK(by_hand(&hand, greeting, sizeof greeting, &found) == QREXEC_FAULTY);
		CHECK(same_reader(&reader, &hand));
	}
}

static void play_gather(const uint8_t *stream, size_t len, int channel)
{
	struct qrexec_gather gather = {.got = 0};
	struct qrexec_reader hand;
	size_t at = 0, put = 0;

	CHECK(qrexec_reader_init(&gather.reader, channel));
	hand = gather.reader;
	while (put < len) {
		size_t count = 1 + any(len - put > 40 ? any(40) + 1 : len - put);
		uint8_t *piece = own(stream + put, count);
		struct qrexec_found found, expected;
		uint32_t answer;

		memset(&found, 0x55, sizeof found), expected = found;
		answer = qrexec_gather(&gather, piece, count, &found);
		free(piece);
		if (answer == QREXEC_NEXT) {
			/* A longer message: gather must be right that it is one. */
			CHECK(gather.got == 8 && gather.taken <= count);
			CHECK(len - at < 8 || by_hand(&hand, stream + at, 8, &expected) == QREXEC_LESS);
			CHECK(!memcmp(gather.bytes, stream + at, 8));
			return;
		}
		CHECK(gather.taken <= count);
		put += gather.taken;
		CHECK(answer == by_hand(&hand, stream + at, put - at, &expected));
		CHECK(same_found(&found, &expected));
		CHECK(same_reader(&gather.reader, &hand));
		if (answer == QREXEC_FAULTY)
			return;
		if (answer == QREXEC_FOUND) {
			CHECK(!memcmp(gather.bytes, stream + at, 8 + found.len) && gather.got == 0);
			at += 8 + found.len;
			CHECK(put == at);
		} else {
			CHECK(answer == QREXEC_LESS && gather.taken == count);
		}
	}
}

static void play_pass(const uint8_t *stream, size_t len, int channel)
{
	struct qrexec_passing passing = {.under = 0};
	struct qrexec_reader hand;
	size_t at = 0;

	CHECK(qrexec_reader_init(&passing.reader, channel));
	hand = passing.reader;
	for (;;) {
		struct qrexec_found found, expected;
		uint32_t whole = by_hand(&hand, stream + at, len - at, &expected), answer;
		uint8_t *header = own(stream + at, len - at < 8 ? len - at : 8);

		answer = qrexec_head(&passing, header, len - at < 8 ? len - at : 8);
		free(header);
		if (answer == QREXEC_FAULTY) {
			CHECK(whole == QREXEC_FAULTY && same_reader(&passing.reader, &hand));
			return;
		}
		if (len - at < 8) {
			CHECK(answer == QREXEC_LESS);
			return;
		}
		if (answer == QREXEC_NEXT) {
			CHECK(passing.kind >= QREXEC_EXIT_CODE);
			answer = qrexec_next(&passing.reader, stream + at, len - at, &found);
			CHECK(answer == whole && same_reader(&passing.reader, &hand));
		} else {
			size_t here = at + 8;

			CHECK(answer == QREXEC_FOUND && passing.left == passing.len && passing.kind <= QREXEC_STDERR);
			CHECK(qrexec_head(&passing, stream + at, 8) == QREXEC_REFUSED);
			CHECK(qrexec_pass(&passing, passing.left + 1) == QREXEC_TOO_MANY);
			do {
				uint32_t most = len - here < passing.left ? len - here : passing.left, count = any(most + 1);

				answer = QREXEC_LESS;
				if (!most && passing.left)
					break;
				here += count;
				answer = qrexec_pass(&passing, count);
				CHECK(answer == (here == at + 8 + passing.len ? QREXEC_FOUND : QREXEC_LESS));
			} while (answer == QREXEC_LESS);
			if (answer == QREXEC_FOUND)
				CHECK(whole == QREXEC_FOUND && same_reader(&passing.reader, &hand) &&
				      qrexec_pass(&passing, 0) == QREXEC_REFUSED);
			else
				CHECK(whole == QREXEC_LESS);
			answer = whole;
		}
		if (answer != QREXEC_FOUND)
			return;
		at += 8 + expected.len;
	}
}

/* A writer's message, read by hand. */
static void written(const uint8_t *out, size_t count, size_t room, uint32_t kind, struct qrexec_found *found)
{
	struct qrexec_reader hand = {.channel = kind < QREXEC_EXEC};

	CHECK(count <= room);
	CHECK(by_hand(&hand, out, count, found) == QREXEC_FOUND && found->kind == kind && 8 + found->len == count);
	for (size_t i = count; i < room; i++)
		CHECK(out[i] == 0xa5);
}

static bool is_text(const uint8_t *out, struct qrexec_span span, const uint8_t *text, size_t len)
{
	return span.len == len && !memcmp(out + span.at, text, len);
}

static size_t some_text(uint8_t *text, size_t most)
{
	size_t len = any(8) ? any(most + 1) : most + any(3);

	for (size_t i = 0; i < len; i++)
		text[i] = any(400) ? 1 + any(255) : 0;
	return len;
}

static void play_writers(void)
{
	uint8_t texts[3][512], *out;
	uint32_t kind = kinds[any(2)][any(8)], domain = any(1u << 31) * 2 + any(2), port = any(1u << 31);
	bool v3 = kind == QREXEC_TRIGGER3;
	size_t most[3] = {v3 ? 63 : 31, 31, kind == QREXEC_TRIGGER ? 63 : 400}, len[3], room, need, count;
	struct qrexec_found found;
	bool fits = true;

	for (int i = 0; i < 3; i++)
		len[i] = some_text(texts[i], most[i]);
	switch (kind) {
	case QREXEC_STDIN: case QREXEC_STDOUT: case QREXEC_STDERR: need = 8 + len[2]; break;
	case QREXEC_EXIT_CODE: case QREXEC_HELLO: need = 12; break;
	case QREXEC_EXEC: case QREXEC_JUST_EXEC: need = 17 + len[2], fits = !memchr(texts[2], 0, len[2]); break;
	case QREXEC_CONNECT: need = 48, fits = len[1] <= 31 && !memchr(texts[1], 0, len[1]); break;
	case QREXEC_REFUSED_CALL: need = 40, fits = len[1] <= 31 && !memchr(texts[1], 0, len[1]); break;
	case QREXEC_TERMINATED: need = 16; break;
	default:
		need = v3 ? 105 + len[2] : 136;
		for (int i = 0; i < 3; i++)
			fits = fits && (len[i] <= most[i] || (v3 && i == 2)) && !memchr(texts[i], 0, len[i]);
	}
	room = any(6) ? need + any(3) : any(need);
	out = malloc(room ? room : 1);
	memset(out, 0xa5, room);
	switch (kind) {
	case QREXEC_STDIN: count = qrexec_put_stdin(out, room, texts[2], len[2]); break;
	case QREXEC_STDOUT: count = qrexec_put_stdout(out, room, texts[2], len[2]); break;
	case QREXEC_STDERR: count = qrexec_put_stderr(out, room, texts[2], len[2]); break;
	case QREXEC_EXIT_CODE: count = qrexec_put_exit_code(out, room, (int32_t)domain); break;
	case QREXEC_HELLO: count = qrexec_put_hello(out, room, domain); break;
	case QREXEC_EXEC: count = qrexec_put_exec(out, room, domain, port, texts[2], len[2]); break;
	case QREXEC_JUST_EXEC: count = qrexec_put_just_exec(out, room, domain, port, texts[2], len[2]); break;
	case QREXEC_CONNECT: count = qrexec_put_connect(out, room, domain, port, texts[1], len[1]); break;
	case QREXEC_REFUSED_CALL: count = qrexec_put_refused(out, room, texts[1], len[1]); break;
	case QREXEC_TERMINATED: count = qrexec_put_terminated(out, room, domain, port); break;
	case QREXEC_TRIGGER3: count = qrexec_put_trigger3(out, room, texts[0], len[0], texts[1], len[1], texts[2], len[2]); break;
	default: count = qrexec_put_trigger(out, room, texts[0], len[0], texts[1], len[1], texts[2], len[2]);
	}
	if (!fits || room < need) {
		CHECK(count == 0);
		for (size_t i = 0; i < room; i++)
			CHECK(out[i] == 0xa5);
		free(out);
		return;
	}
	CHECK(count == need);
	written(out, count, room, kind, &found);
	switch (kind) {
	case QREXEC_STDIN: case QREXEC_STDOUT: case QREXEC_STDERR: CHECK(!memcmp(out + 8, texts[2], len[2])); break;
	case QREXEC_EXIT_CODE: case QREXEC_HELLO: CHECK(found.first == domain); break;
	case QREXEC_EXEC: case QREXEC_JUST_EXEC: CHECK(found.first == domain && found.second == port && is_text(out, found.text, texts[2], len[2])); break;
	case QREXEC_CONNECT: CHECK(found.first == domain && found.second == port && is_text(out, found.ident, texts[1], len[1])); break;
	case QREXEC_REFUSED_CALL: CHECK(is_text(out, found.ident, texts[1], len[1])); break;
	case QREXEC_TERMINATED: CHECK(found.first == domain && found.second == port); break;
	default:
		CHECK(is_text(out, found.target, texts[0], len[0]) && is_text(out, found.ident, texts[1], len[1]) && is_text(out, found.text, texts[2], len[2]));
	}
	free(out);
}

/* Any bits in the structs, and any bytes: nothing outside is touched, and what is told lies within. */
static void play_wild(const uint8_t *stream, size_t len)
{
	struct qrexec_gather gather, was;
	struct qrexec_passing passing;
	struct qrexec_found found;
	uint32_t answer;

	for (size_t i = 0; i < sizeof gather; i++)
		((uint8_t *)&gather)[i] = any(3) ? 0 : any(256);
	for (size_t i = 0; i < sizeof passing; i++)
		((uint8_t *)&passing)[i] = any(3) ? 0 : any(256);
	if (any(2))
		gather.reader.channel = any(3), gather.reader.fault = any(2) ? 0 : any(6), gather.got = any(140);
	if (any(2))
		passing.reader.channel = any(3), passing.reader.fault = any(2) ? 0 : any(6), passing.under = any(3), passing.kind = 0x18f + any(6), passing.len = any(70000), passing.left = any(70000);
	was = gather;
	answer = qrexec_gather(&gather, stream, len, &found);
	CHECK(answer <= QREXEC_NEXT);
	if (was.reader.channel > 1 || was.reader.fault > 4 || (!was.reader.fault && was.got > QREXEC_GATHERED))
		CHECK(answer == QREXEC_REFUSED);
	if (answer == QREXEC_REFUSED || was.reader.fault)
		CHECK(!memcmp(&gather, &was, sizeof was));
	else
		CHECK(gather.taken <= len && gather.got <= QREXEC_GATHERED);
	if (answer == QREXEC_FOUND)
		CHECK(8 + found.len <= QREXEC_GATHERED && found.text.at + found.text.len <= 8 + found.len);
	answer = qrexec_pass(&passing, any(70000));
	CHECK(answer == QREXEC_LESS || answer == QREXEC_FOUND || answer == QREXEC_REFUSED || answer == QREXEC_TOO_MANY);
	if (answer != QREXEC_REFUSED)
		CHECK(passing.reader.channel == QREXEC_DATA && passing.len <= 65536 && passing.left <= passing.len);
	qrexec_head(&passing, stream, len);
	qrexec_next(&gather.reader, stream, len, &found);
}

static void play(long count)
{
	static uint8_t stream[MOST];

	for (long i = 0; i < count; i++) {
		for (int channel = 0; channel < 2; channel++) {
			size_t len = some_stream(stream, channel);

			play_next(stream, len, channel);
			play_gather(stream, len, channel);
			play_pass(stream, len, channel);
			play_wild(stream, len);
		}
		play_writers();
	}
}

/* ---- as `vchan decode` prints */

static void print_text(const uint8_t *bytes, struct qrexec_span span)
{
	printf(span.len ? " " : " -");
	for (uint32_t i = 0; i < span.len; i++) {
		uint8_t b = bytes[span.at + i];

		putchar(b < 0x20 || b > 0x7e ? '_' : b);
	}
}

static void print_message(const uint8_t *bytes, const struct qrexec_found *f)
{
	static const char *const streams[] = {"stdin", "stdout", "stderr"};

	switch (f->kind) {
	case QREXEC_HELLO: printf("hello %u", f->first); break;
	case QREXEC_EXIT_CODE: printf("exit %d", (int)f->first); break;
	case QREXEC_EXEC: case QREXEC_JUST_EXEC:
		printf("%s %u %u", f->kind == QREXEC_EXEC ? "exec" : "just-exec", f->first, f->second), print_text(bytes, f->text); break;
	case QREXEC_CONNECT: printf("connect %u %u", f->first, f->second), print_text(bytes, f->ident); break;
	case QREXEC_REFUSED_CALL: printf("refused"), print_text(bytes, f->ident); break;
	case QREXEC_TERMINATED: printf("terminated %u %u", f->first, f->second); break;
	case QREXEC_TRIGGER: case QREXEC_TRIGGER3:
		printf(f->kind == QREXEC_TRIGGER ? "trigger" : "trigger3");
		print_text(bytes, f->target), print_text(bytes, f->ident), print_text(bytes, f->text); break;
	default:
		printf("%s %u ", streams[f->kind - QREXEC_STDIN], f->len);
		for (uint32_t i = 0; i < f->len; i++)
			printf("%02x", bytes[8 + i]);
		if (!f->len)
			printf("-");
	}
	putchar('\n');
}

static void print_end(const struct qrexec_reader *r, size_t left)
{
	static const char *const faults[] = {"", "unknown-type", "too-long", "bad-length", "no-nul"};

	if (!r->fault)
		printf("rest %zu\n", left);
	else if (r->fault == QREXEC_UNKNOWN_TYPE || r->fault == QREXEC_NO_NUL)
		printf("fault %s %llu %u\n", faults[r->fault], (unsigned long long)r->at, r->kind);
	else
		printf("fault %s %llu %u %u\n", faults[r->fault], (unsigned long long)r->at, r->kind, r->len);
}

static void print_pieces(const uint8_t *stream, size_t len)
{
	for (size_t i = 0; i < len; i++)
		printf("%02x%s", stream[i], any(20) && i + 1 < len ? "" : "\n");
}

static void print_lines(const uint8_t *stream, size_t len, int channel)
{
	struct qrexec_reader reader;
	struct qrexec_found found;
	size_t at = 0;

	CHECK(qrexec_reader_init(&reader, channel));
	while (qrexec_next(&reader, stream + at, len - at, &found) == QREXEC_FOUND)
		print_message(stream + at, &found), at += 8 + found.len;
	print_end(&reader, len - at);
}

int main(int argc, char **argv)
{
	if (argc > 2 && (!strcmp(argv[1], "stream") || !strcmp(argv[1], "lines"))) {
		static uint8_t stream[16u << 20];
		int channel = !strcmp(argv[2], "data");
		size_t len;

		seed += argc == 4 ? 0x9e3779b97f4a7c15u * (uint64_t)atol(argv[3]) : 0;
		len = argc == 4 ? some_stream(stream, channel) : fread(stream, 1, sizeof stream, stdin);
		if (!strcmp(argv[1], "stream"))
			print_pieces(stream, len);
		else
			print_lines(stream, len, channel);
		return 0;
	}
	if (argc == 3) {
		time_t end = time(NULL) + atol(argv[1]);

		seed ^= (uint64_t)time(NULL) << 20;
		while (time(NULL) < end)
			play(200);
		return 0;
	}
	play(argc == 2 ? atol(argv[1]) : 20000);
	for (int channel = 0; channel < 2; channel++)
		for (int i = 0; i < 8; i++)
			CHECK(found_kinds[kinds[channel][i]]);
	for (int fault = 1; fault < 5; fault++)
		CHECK(found_faults[0][fault] && (found_faults[1][fault] || fault == QREXEC_NO_NUL));
	return 0;
}
