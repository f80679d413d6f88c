#include "stand_ins.h"
#include <errno.h>
#include <poll.h>
#include <stdio.h>
#include <stdlib.h>
#include <string.h>
#include <sys/eventfd.h>
#include <sys/syscall.h>
#include <unistd.h>
#include <xenstore.h>

#define ANY_PORT 1
#define ANY_REFERENCE "1"
#define PATIENCE 20000

/* An end's event channel: signals don't add up in it. */
struct xenevtchn_handle {
	enum who who;
	int signal;
};

static struct xenevtchn_handle ends[] = { { SERVER, -1 }, { CLIENT, -1 } };
/* The end whose control structure the library is making. */
static struct xenevtchn_handle *made;
static int patience;

_Alignas(PAGE_SIZE) union page page;
_Alignas(PAGE_SIZE) uint8_t granted[2 * GREATEST_RING];
uint64_t signals_given;

static void fail(const char *why)
{
	fflush(stdout);
	fprintf(stderr, "stand_ins: %s\n", why);
	exit(1);
}

void begin_stand_ins(bool waits)
{
	patience = waits ? PATIENCE : 0;
	for (int who = SERVER; who <= CLIENT; who++) {
		ends[who].signal = eventfd(0, 0);
		if (ends[who].signal < 0)
			fail("no eventfd");
	}
}

void make_next(enum who who)
{
	made = &ends[who];
}

void give_signal(enum who to)
{
	uint64_t one = 1;

	__atomic_fetch_add(&signals_given, 1, __ATOMIC_RELAXED);
	if (write(ends[to].signal, &one, sizeof one) != sizeof one)
		fail("a signal isn't given");
}

static bool take_within(enum who of, int milliseconds)
{
	struct pollfd it = { .fd = ends[of].signal, .events = POLLIN };
	uint64_t count;

	return poll(&it, 1, milliseconds) == 1 && read(it.fd, &count, sizeof count) == sizeof count;
}

bool take_signal(enum who of)
{
	return take_within(of, 0);
}

bool wait_for_signal(enum who of)
{
	return take_within(of, patience);
}

enum stand_in { NOTIFY, PENDING, SHARE_PAGE, SHARE_PAGES, MAP_PAGE, MAP_PAGES, UNMAP, STORE, STAND_INS };

static bool is_reached[STAND_INS];

xenevtchn_handle *xenevtchn_open(struct xentoollog_logger *logger, unsigned int flags)
{
	return made;
}

int xenevtchn_close(xenevtchn_handle *events)
{
	return 0;
}

int xenevtchn_fd(xenevtchn_handle *events)
{
	return events->signal;
}

int xenevtchn_notify(xenevtchn_handle *events, evtchn_port_t port)
{
	is_reached[NOTIFY] = true;
	give_signal(!events->who);
	return 0;
}

xenevtchn_port_or_error_t xenevtchn_bind_unbound_port(xenevtchn_handle *events, uint32_t domain)
{
	return ANY_PORT;
}

xenevtchn_port_or_error_t xenevtchn_bind_interdomain(xenevtchn_handle *events, uint32_t domain,
						     evtchn_port_t port)
{
	return ANY_PORT;
}

int xenevtchn_unbind(xenevtchn_handle *events, evtchn_port_t port)
{
	return 0;
}

xenevtchn_port_or_error_t xenevtchn_pending(xenevtchn_handle *events)
{
	is_reached[PENDING] = true;
	if (!wait_for_signal(events->who)) {
		errno = EAGAIN;
		return -1;
	}
	return ANY_PORT;
}

int xenevtchn_unmask(xenevtchn_handle *events, evtchn_port_t port)
{
	return 0;
}

/* The address of a page by its place in the grant list. */
static void *granted_at(const uint32_t *references)
{
	return granted + (references - page.header.grants) * PAGE_SIZE;
}

xengntshr_handle *xengntshr_open(struct xentoollog_logger *logger, unsigned flags)
{
	return (xengntshr_handle *)&page;
}

int xengntshr_close(xengntshr_handle *grants)
{
	return 0;
}

void *xengntshr_share_pages(xengntshr_handle *grants, uint32_t domain, int count, uint32_t *references,
			    int writable)
{
	is_reached[SHARE_PAGES] = true;
	for (int i = 0; i < count; i++)
		references[i] = references + i - page.header.grants;
	return granted_at(references);
}

void *xengntshr_share_page_notify(xengntshr_handle *grants, uint32_t domain, uint32_t *reference,
				  int writable, uint32_t offset, evtchn_port_t port)
{
	is_reached[SHARE_PAGE] = true;
	*reference = 0;
	return page.bytes;
}

int xengntshr_unshare(xengntshr_handle *grants, void *start, uint32_t count)
{
	return 0;
}

xengnttab_handle *xengnttab_open(struct xentoollog_logger *logger, unsigned flags)
{
	return (xengnttab_handle *)&page;
}

int xengnttab_close(xengnttab_handle *grants)
{
	return 0;
}

void *xengnttab_map_domain_grant_refs(xengnttab_handle *grants, uint32_t count, uint32_t domain,
				      uint32_t *references, int protection)
{
	is_reached[MAP_PAGES] = true;
	return granted_at(references);
}

void *xengnttab_map_grant_ref_notify(xengnttab_handle *grants, uint32_t domain, uint32_t reference,
				     int protection, uint32_t offset, evtchn_port_t port)
{
	is_reached[MAP_PAGE] = true;
	return page.bytes;
}

int xengnttab_unmap(xengnttab_handle *grants, void *start, uint32_t count)
{
	return 0;
}

/* The library unmaps rings by this function itself; every other mapping is the system's. */
int munmap(void *start, size_t length)
{
	uint8_t *at = start;

	if (at >= granted && at < granted + sizeof granted) {
		is_reached[UNMAP] = true;
		return 0;
	}
	return syscall(SYS_munmap, start, length);
}

struct xs_handle *xs_open(unsigned long flags)
{
	return (struct xs_handle *)&page;
}

void xs_close(struct xs_handle *store)
{
}

void *xs_read(struct xs_handle *store, xs_transaction_t transaction, const char *path, unsigned int *length)
{
	is_reached[STORE] = true;
	if (length)
		*length = strlen(ANY_REFERENCE);
	return strdup(ANY_REFERENCE);
}

bool xs_write(struct xs_handle *store, xs_transaction_t transaction, const char *path, const void *value,
	      unsigned int length)
{
	return true;
}

bool xs_rm(struct xs_handle *store, xs_transaction_t transaction, const char *path)
{
	return true;
}

bool xs_set_permissions(struct xs_handle *store, xs_transaction_t transaction, const char *path,
			struct xs_permissions *permissions, unsigned int count)
{
	return true;
}

xs_transaction_t xs_transaction_start(struct xs_handle *store)
{
	return 1;
}

bool xs_transaction_end(struct xs_handle *store, xs_transaction_t transaction, bool abort)
{
	return true;
}

void check_reached(void)
{
	static const char *const names[STAND_INS] = {
		[NOTIFY] = "xenevtchn_notify",
		[PENDING] = "xenevtchn_pending",
		[SHARE_PAGE] = "xengntshr_share_page_notify",
		[SHARE_PAGES] = "xengntshr_share_pages",
		[MAP_PAGE] = "xengnttab_map_grant_ref_notify",
		[MAP_PAGES] = "xengnttab_map_domain_grant_refs",
		[UNMAP] = "munmap",
		[STORE] = "xs_read",
	};

	for (int i = 0; i < STAND_INS; i++) {
		if (!is_reached[i]) {
			fprintf(stderr, "stand_ins: the library doesn't reach the %s of this program\n", names[i]);
			exit(1);
		}
	}
}
