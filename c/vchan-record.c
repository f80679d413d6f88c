/*
 * Writes what a program of libxenvchan sends and gets into two files for each of its ends, which `vchan decode` reads:
 *
 *     LD_PRELOAD=libvchan_record.so VCHAN_RECORD=/tmp/call PROGRAM
 *
 * The first end that moves a byte writes /tmp/call-1.sent and /tmp/call-1.got, the next one /tmp/call-2.sent and so on.
 * Another library of LD_PRELOAD behind it, as libvchan_proved.so, is recorded as libxenvchan itself is. A file holds
 * the bytes that the calls answered, in their order. It is no proof of what the peer stored.
 */
#define _GNU_SOURCE
#include <dlfcn.h>
#include <fcntl.h>
#include <pthread.h>
#include <stdio.h>
#include <stdlib.h>
#include <unistd.h>

struct libxenvchan;

#define MOST 64 /* ends; what more of them move isn't recorded */

static struct { struct libxenvchan *of; int sent, got; } ends[MOST];
static pthread_mutex_t lock = PTHREAD_MUTEX_INITIALIZER;
static int count, made;

static int create(const char *kind)
{
	char name[4096];
	const char *prefix = getenv("VCHAN_RECORD");
	int file;

	if (!prefix || snprintf(name, sizeof name, "%s-%d.%s", prefix, made, kind) >= (int)sizeof name)
		return -1;
	file = open(name, O_WRONLY | O_CREAT | O_TRUNC | O_CLOEXEC, 0600);
	if (file < 0)
		perror(name);
	return file;
}

static int record(struct libxenvchan *of, int is_sent, const char *data, int moved)
{
	int at = 0, file;

	if (moved <= 0)
		return moved;
	pthread_mutex_lock(&lock);
	while (at < count && ends[at].of != of)
		at++;
	if (at == count && count < MOST) {
		made++, count++;
		ends[at].of = of, ends[at].sent = create("sent"), ends[at].got = create("got");
	}
	file = at == count ? -1 : is_sent ? ends[at].sent : ends[at].got;
	for (int done = 0, wrote; file >= 0 && done < moved; done += wrote)
		if ((wrote = (int)write(file, data + done, (size_t)(moved - done))) <= 0)
			break;
	pthread_mutex_unlock(&lock);
	return moved;
}

#define RECORD(name, data_type, is_sent) \
	int libxenvchan_##name(struct libxenvchan *of, data_type data, size_t size) \
	{ \
		int (*next)(struct libxenvchan *, data_type, size_t); \
\
		*(void **)&next = dlsym(RTLD_NEXT, "libxenvchan_" #name); \
		return next ? record(of, is_sent, data, next(of, data, size)) : -1; \
	}

RECORD(write, const void *, 1)
RECORD(send, const void *, 1)
RECORD(read, void *, 0)
RECORD(recv, void *, 0)

/* Another end may come to lie at the address of one that is closed. */
void libxenvchan_close(struct libxenvchan *of)
{
	void (*next)(struct libxenvchan *);

	pthread_mutex_lock(&lock);
	for (int at = 0; at < count; at++) {
		if (ends[at].of == of) {
			close(ends[at].sent), close(ends[at].got);
			ends[at] = ends[--count];
		}
	}
	pthread_mutex_unlock(&lock);
	*(void **)&next = dlsym(RTLD_NEXT, "libxenvchan_close");
	if (next)
		next(of);
}
