/*
 * The half of libxenvchan that moves bytes, on the proved ring: libvchan_proved.so, to be loaded before the
 * distribution's library (c/vchan-preload). The distribution's own functions make an end, map its page, bind its
 * event channel, and undo these. What an open end does on the page is done by vchan_page.h.
 *
 * This file is not proved. docs/XEN.md says how it differs from the library and what it doesn't cover.
 */
#define _GNU_SOURCE
#include "vchan_page.h"
#include <dlfcn.h>
#include <errno.h>
#include <libxenvchan.h>
#include <pthread.h>
#include <stdio.h>
#include <stdlib.h>
#include <sys/mman.h>

/* An end, in memory that forked processes share: whoever uses it, it has one pair of counts. */
struct shared {
	pthread_mutex_t use; /* held during a call, except while that waits */
	pthread_mutex_t door, ear; /* held by the next one to wait on the event channel, and by the one that waits there */
	unsigned long signals; /* how many were heard */
	struct libxenvchan *of;
	struct vchan_page page;
};

/* The ends of this process. A node stays for good; one that has no end is used again. */
static struct known {
	struct known *next;
	struct libxenvchan *of;
	struct shared *end;
} *all;
static struct shared *list; /* no end: `use` is the lock of the list */

static struct shared *map_locks(void)
{
	struct shared *made = mmap(NULL, sizeof *made, PROT_READ | PROT_WRITE, MAP_SHARED | MAP_ANONYMOUS, -1, 0);
	pthread_mutexattr_t kind;

	if (made == MAP_FAILED)
		return NULL;
	pthread_mutexattr_init(&kind);
	pthread_mutexattr_setpshared(&kind, PTHREAD_PROCESS_SHARED);
	pthread_mutexattr_setrobust(&kind, PTHREAD_MUTEX_ROBUST);
	pthread_mutexattr_settype(&kind, PTHREAD_MUTEX_ERRORCHECK);
	pthread_mutex_init(&made->use, &kind);
	pthread_mutex_init(&made->door, &kind);
	pthread_mutex_init(&made->ear, &kind);
	return made;
}

__attribute__((constructor)) static void begin(void)
{
	list = map_locks();
	if (getenv("VCHAN_SHOW"))
		fprintf(stderr, "vchan: the proved ring serves (libvchan_proved.so %s)\n", VCHAN_PAGE_VERSION);
}

/* Takes a lock, also one whose owner died. Returns false with EDEADLK if the caller has it, as in a signal handler. */
static bool take(pthread_mutex_t *lock)
{
	int error = pthread_mutex_lock(lock);

	if (error == EOWNERDEAD)
		error = pthread_mutex_consistent(lock);
	if (error)
		errno = error;
	return !error;
}

static bool notify(void *context)
{
	const struct libxenvchan *of = ((struct shared *)context)->of;

	return xenevtchn_notify(of->event, of->event_port) == 0;
}

static bool has_heard(const struct shared *end, unsigned long seen) { return __atomic_load_n(&end->signals, __ATOMIC_SEQ_CST) != seen; }

/* One waits on the event channel, and its signal is one for all that wait, each of which makes its call again. The
 * next one stands at the door, so that who has heard a signal can't be the first to wait again. */
static bool hear(struct shared *end, unsigned long seen)
{
	xenevtchn_port_or_error_t port;
	bool has_ear;

	if (!take(&end->door))
		return false;
	has_ear = !has_heard(end, seen) && take(&end->ear);
	pthread_mutex_unlock(&end->door);
	if (!has_ear)
		return has_heard(end, seen);
	if (!has_heard(end, seen) && (port = xenevtchn_pending(end->of->event)) >= 0) {
		xenevtchn_unmask(end->of->event, (evtchn_port_t)port);
		take(&end->use); /* no call is between its look and its wait */
		__atomic_add_fetch(&end->signals, 1, __ATOMIC_SEQ_CST);
		pthread_mutex_unlock(&end->use);
	}
	pthread_mutex_unlock(&end->ear);
	return has_heard(end, seen);
}

static bool wait_for_event(void *context)
{
	struct shared *end = context;
	unsigned long seen = end->signals;
	bool came;

	pthread_mutex_unlock(&end->use);
	came = hear(end, seen);
	if (!take(&end->use))
		return false;
	end->page.with.persists = end->of->server_persist;
	return came;
}

/* Makes the proved end for one that the distribution made: open, with the counts that the page has now. */
static struct shared *adopt(struct libxenvchan *of)
{
	const struct libxenvchan_ring *left = of->is_server ? &of->read : &of->write, *right = of->is_server ? &of->write : &of->read;
	struct shared *end = map_locks();
	struct vchan_setup with = {
		.role = of->is_server ? VCHAN_SERVER : VCHAN_CLIENT, .state = VCHAN_OPEN, .front = (struct vchan_front *)of->ring,
		.left = left->buffer, .right = right->buffer, .left_order = (uint32_t)left->order, .right_order = (uint32_t)right->order,
		.prod = __atomic_load_n(&of->write.shr->prod, __ATOMIC_SEQ_CST), .cons = __atomic_load_n(&of->read.shr->cons, __ATOMIC_SEQ_CST),
		.notify = notify, .wait_for_event = wait_for_event, .context = end,
	};

	if (end && vchan_page_open(&end->page, &with)) {
		munmap(end, sizeof *end);
		return NULL;
	}
	if (end)
		end->of = of;
	return end;
}

static struct known *find(const struct libxenvchan *of)
{
	struct known *known = __atomic_load_n(&all, __ATOMIC_ACQUIRE);

	while (known && __atomic_load_n(&known->of, __ATOMIC_ACQUIRE) != of)
		known = known->next;
	return known;
}

static struct shared *end_of(struct libxenvchan *of)
{
	struct known *known = find(of), *spare;

	if (known || !list || !take(&list->use))
		return known ? known->end : NULL;
	known = find(of);
	spare = known ? NULL : find(NULL);
	if (!known && !spare && (spare = calloc(1, sizeof *spare))) {
		spare->next = all;
		__atomic_store_n(&all, spare, __ATOMIC_RELEASE);
	}
	if (spare && (spare->end = adopt(of))) {
		__atomic_store_n(&spare->of, of, __ATOMIC_RELEASE);
		known = spare;
	}
	pthread_mutex_unlock(&list->use);
	return known ? known->end : NULL;
}

static void forget(const struct libxenvchan *of)
{
	struct known *known = find(of);
	struct shared *end = known ? known->end : NULL;

	if (end) {
		__atomic_store_n(&known->of, NULL, __ATOMIC_RELEASE);
		munmap(end, sizeof *end);
	}
}

static struct vchan_page *enter(struct libxenvchan *of)
{
	struct shared *end = end_of(of);

	if (!end || !take(&end->use))
		return NULL;
	end->page.with.persists = of->server_persist;
	return &end->page;
}

static int leave(struct vchan_page *page, int result)
{
	pthread_mutex_unlock(&((struct shared *)page->with.context)->use);
	return result;
}

/* Makes a call on the end of `of`, which the call names `page`. Returns -1 if the end can't be had. */
#define CALL(of, call) \
	struct vchan_page *page = enter(of); \
	return page ? leave(page, (call)) : -1

#define MOVES(name, in_mode, data_type) \
	int libxenvchan_##name(struct libxenvchan *of, data_type data, size_t size) \
	{ \
		CALL(of, of->blocking ? vchan_page_##in_mode(page, data, size) : vchan_page_##name(page, data, size)); \
	}

MOVES(write, write_all, const void *)
MOVES(send, send_wait, const void *)
MOVES(read, read_wait, void *)
MOVES(recv, recv_wait, void *)
int libxenvchan_data_ready(struct libxenvchan *of) { CALL(of, vchan_page_data_ready(page)); }
int libxenvchan_buffer_space(struct libxenvchan *of) { CALL(of, vchan_page_buffer_space(page)); }
int libxenvchan_wait(struct libxenvchan *of) { CALL(of, vchan_page_wait(page)); }

/* Takes no lock: it only looks at one byte. */
int libxenvchan_is_open(struct libxenvchan *of)
{
	struct vchan_page page = { .with = { .role = of->is_server ? VCHAN_SERVER : VCHAN_CLIENT,
					     .front = (struct vchan_front *)of->ring, .persists = of->server_persist } };

	return vchan_page_is_open(&page);
}

/* An end is known from its start on, so that a process and one that it forks don't each take it over later. */
static struct libxenvchan *made(struct libxenvchan *of)
{
	if (of) {
		forget(of);
		end_of(of);
	}
	return of;
}

struct libxenvchan *libxenvchan_server_init(struct xentoollog_logger *logger, int domain, const char *path, size_t left, size_t right)
{
	__typeof__(libxenvchan_server_init) *init = dlsym(RTLD_NEXT, "libxenvchan_server_init");

	return made(init ? init(logger, domain, path, left, right) : NULL);
}

struct libxenvchan *libxenvchan_client_init(struct xentoollog_logger *logger, int domain, const char *path)
{
	__typeof__(libxenvchan_client_init) *init = dlsym(RTLD_NEXT, "libxenvchan_client_init");

	return made(init ? init(logger, domain, path) : NULL);
}

/* Shuts the end by the proved call, and leaves the rest to the distribution's close, which shuts and signals again. */
void libxenvchan_close(struct libxenvchan *of)
{
	__typeof__(libxenvchan_close) *close_end = dlsym(RTLD_NEXT, "libxenvchan_close");

	if (of && find(of)) {
		struct vchan_page *page = enter(of);

		if (page)
			leave(page, vchan_page_close(page));
		forget(of);
	}
	if (close_end)
		close_end(of);
}
