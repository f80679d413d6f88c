#define _GNU_SOURCE
#include "distribution.h"
#include "../../../c/vchan_page.h"
#include <errno.h>
#include <poll.h>
#include <string.h>
#include <sys/eventfd.h>
#include <sys/mman.h>
#include <unistd.h>

struct xenevtchn_handle {
	int own, peer;
};

int closed;
bool notify_fails, wait_fails;
void (*at_notify)(void);

/* Both ends of the one page, always at these addresses. */
static struct xenevtchn_handle channels[2];
static struct libxenvchan ends[2];
static char *page;
static struct vchan_places places;

int xenevtchn_notify(xenevtchn_handle *handle, evtchn_port_t port)
{
	uint64_t one = 1;

	(void)port;
	if (at_notify)
		at_notify();
	errno = EIO;
	return notify_fails || write(handle->peer, &one, sizeof one) != sizeof one ? -1 : 0;
}

xenevtchn_port_or_error_t xenevtchn_pending(xenevtchn_handle *handle)
{
	uint64_t count;

	errno = EIO;
	return wait_fails || read(handle->own, &count, sizeof count) != sizeof count ? -1 : 1;
}

int xenevtchn_unmask(xenevtchn_handle *handle, evtchn_port_t port)
{
	(void)handle;
	return port == 1 ? 0 : -1;
}

bool is_signalled(const struct libxenvchan *end)
{
	struct pollfd it = { .fd = end->event->own, .events = POLLIN };

	return poll(&it, 1, 0) == 1;
}

static struct libxenvchan *make(bool is_client)
{
	struct vchan_front *front = (struct vchan_front *)(void *)page;
	struct libxenvchan *end = &ends[is_client];
	struct libxenvchan_ring left = { (struct ring_shared *)(void *)&front->left_cons, page + places.left, front->left_order };
	struct libxenvchan_ring right = { (struct ring_shared *)(void *)&front->right_cons, page + places.right, front->right_order };

	*end = (struct libxenvchan){ .ring = (void *)front, .event = &channels[is_client], .event_port = 1, .is_server = is_client ? 0 : -1,
				     .read = is_client ? right : left, .write = is_client ? left : right };
	return end;
}

static uint32_t order_of(size_t size)
{
	uint32_t order = 10;

	while ((size_t)1 << order < size)
		order++;
	return order;
}

struct libxenvchan *libxenvchan_server_init(struct xentoollog_logger *logger, int domain, const char *path, size_t left, size_t right)
{
	(void)logger, (void)domain, (void)path;
	if (page)
		munmap(page, places.size), close(channels[0].own), close(channels[1].own);
	if (vchan_page_places(order_of(left), order_of(right), &places))
		return NULL;
	page = mmap(NULL, places.size, PROT_READ | PROT_WRITE, MAP_SHARED | MAP_ANONYMOUS, -1, 0);
	channels[0].own = channels[1].peer = eventfd(0, 0);
	channels[1].own = channels[0].peer = eventfd(0, 0);
	vchan_page_lay((struct vchan_front *)(void *)page, order_of(left), order_of(right));
	return make(false);
}

struct libxenvchan *libxenvchan_client_init(struct xentoollog_logger *logger, int domain, const char *path)
{
	struct vchan_front *front = (struct vchan_front *)(void *)page;

	(void)logger, (void)domain, (void)path;
	front->cli_live = 1, front->srv_notify = 1;
	return make(true);
}

void libxenvchan_close(struct libxenvchan *end)
{
	closed++;
	memset(end, 0xff, sizeof *end);
}
