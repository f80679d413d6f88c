/* Measures the reader of c/qrexec.h beside a parser by hand (tests/c/qrexec/by_hand.c), in cache: nanoseconds a message, each
 * the least of 3,000 rounds, in each of which all are measured, and what they are of the parser's. */
#include "../tests/c/qrexec/by_hand.h"
#include <stdio.h>
#include <stdlib.h>
#include <string.h>
#include <time.h>

typedef uint32_t next_call(struct qrexec_reader *, const uint8_t *, size_t, struct qrexec_found *);

static uint64_t sum;

static double now(void)
{
	struct timespec t;

	clock_gettime(CLOCK_THREAD_CPUTIME_ID, &t);
	return t.tv_sec * 1e9 + t.tv_nsec;
}

static void put_number(uint8_t *p, uint32_t n)
{
	memcpy(p, &n, 4);
}

static double by_next(next_call *next, uint32_t channel, const uint8_t *bytes, size_t len)
{
	struct qrexec_reader reader;
	struct qrexec_found found;
	size_t count = 0, at = 0;
	double from = now();

	qrexec_reader_init(&reader, channel);
	while (next(&reader, bytes + at, len - at, &found) == QREXEC_FOUND)
		at += 8 + found.len, count++, sum += found.ident.len + found.first;
	return (now() - from) / count;
}

static double by_pass(uint32_t channel, const uint8_t *bytes, size_t len)
{
	struct qrexec_passing passing = {.under = 0};
	size_t count = 0, at = 0;
	double from = now();

	qrexec_reader_init(&passing.reader, channel);
	while (at < len && qrexec_head(&passing, bytes + at, 8) == QREXEC_FOUND) {
		at += 8 + passing.len, count++;
		qrexec_pass(&passing, passing.len);
	}
	return (now() - from) / count;
}

static double by_gather(uint32_t channel, const uint8_t *bytes, size_t len)
{
	struct qrexec_gather gather = {.got = 0};
	struct qrexec_found found;
	size_t count = 0, at = 0;
	double from = now();

	qrexec_reader_init(&gather.reader, channel);
	while (at < len && qrexec_gather(&gather, bytes + at, len - at, &found) == QREXEC_FOUND)
		at += gather.taken, count++, sum += found.ident.len;
	return (now() - from) / count;
}

static size_t fill(uint8_t *out, size_t count, uint32_t kind, uint32_t len, size_t service, size_t target, size_t ident)
{
	size_t at = 0;

	for (size_t i = 0; i < count; i++, at += 8 + len) {
		put_number(out + at, kind), put_number(out + at + 4, len);
		memset(out + at + 8, 0, len);
		if (service)
			strcpy((char *)out + at + service, "qubes.Filecopy+some-argument");
		if (target)
			strcpy((char *)out + at + target, "work-vm");
		if (ident)
			sprintf((char *)out + at + ident, "SOCKET%zu", i);
	}
	return at;
}

int main(void)
{
	static uint8_t bytes[10 * 65544];
	static const struct { const char *name; uint32_t kind, len; size_t count, service, target, ident; } rows[] = {
		{"data of 16 bytes", QREXEC_STDOUT, 16, 4000, 0, 0, 0},
		{"data of 65,536 bytes", QREXEC_STDOUT, 65536, 10, 0, 0, 0},
		{"connect", QREXEC_CONNECT, 40, 2000, 0, 0, 16},
		{"trigger", QREXEC_TRIGGER, 128, 2000, 8, 72, 104},
		{"trigger3", QREXEC_TRIGGER3, 128, 2000, 104, 8, 72},
	};

	for (size_t row = 0; row < sizeof rows / sizeof *rows; row++) {
		uint32_t channel = rows[row].kind < QREXEC_EXEC;
		size_t len = fill(bytes, rows[row].count, rows[row].kind, rows[row].len, rows[row].service, rows[row].target, rows[row].ident);
		double least[4] = {1e18, 1e18, 1e18, 1e18};

		for (int round = 0; round < 3000; round++) {
			double took[4] = {by_next(by_hand, channel, bytes, len), by_next(qrexec_next, channel, bytes, len),
					  channel ? by_pass(channel, bytes, len) : 1e18, channel ? 1e18 : by_gather(channel, bytes, len)};

			for (int i = 0; i < 4; i++)
				least[i] = took[i] < least[i] ? took[i] : least[i];
		}
		printf("%s: by hand %.2f ns, next %.2f", rows[row].name, least[0], least[1] / least[0]);
		printf(channel ? ", head and pass %.2f\n" : ", gather %.2f\n", least[channel ? 2 : 3] / least[0]);
	}
	return sum == 1;
}
