/*
 * Stands in for Xen's libxenvchan.h and what that includes, where libxen-dev isn't installed: it declares just what
 * c/libxenvchan_io.c uses. With libxen-dev the same file is compiled against Xen's own header (`run preload`).
 */
#ifndef LIBXENVCHAN_H
#define LIBXENVCHAN_H

#include <stddef.h>
#include <stdint.h>

struct xentoollog_logger;
typedef struct xenevtchn_handle xenevtchn_handle;
typedef uint32_t evtchn_port_t;
typedef int xenevtchn_port_or_error_t;

int xenevtchn_notify(xenevtchn_handle *handle, evtchn_port_t port);
xenevtchn_port_or_error_t xenevtchn_pending(xenevtchn_handle *handle);
int xenevtchn_unmask(xenevtchn_handle *handle, evtchn_port_t port);

struct ring_shared {
	uint32_t cons, prod;
};

struct vchan_interface;

struct libxenvchan_ring {
	struct ring_shared *shr;
	void *buffer;
	int order;
};

struct libxenvchan {
	struct vchan_interface *ring;
	xenevtchn_handle *event;
	uint32_t event_port;
	int is_server : 1, server_persist : 1, blocking : 1;
	struct libxenvchan_ring read, write;
};

struct libxenvchan *libxenvchan_server_init(struct xentoollog_logger *logger, int domain, const char *path, size_t left, size_t right);
struct libxenvchan *libxenvchan_client_init(struct xentoollog_logger *logger, int domain, const char *path);
void libxenvchan_close(struct libxenvchan *end);
int libxenvchan_write(struct libxenvchan *end, const void *data, size_t size);
int libxenvchan_send(struct libxenvchan *end, const void *data, size_t size);
int libxenvchan_read(struct libxenvchan *end, void *data, size_t size);
int libxenvchan_recv(struct libxenvchan *end, void *data, size_t size);
int libxenvchan_wait(struct libxenvchan *end);
int libxenvchan_is_open(struct libxenvchan *end);
int libxenvchan_data_ready(struct libxenvchan *end);
int libxenvchan_buffer_space(struct libxenvchan *end);

#endif
