/*
 * One end of a vchan on a page that is mapped already: the calls of libxenvchan, made by the proved library.
 *
 * This file and vchan_page.c are not proved. They make the loads and stores that the library tells: which
 * these are, in which order and at which places, how many bytes move and what a call answers is proved
 * (crates/vchan_c). What they do without the library, and is only tested: vchan_page_lay writes the front of a
 * new page and vchan_page_places counts where rings lie, vchan_page_open checks that they lie apart, a call that
 * waits is made again after each signal, vchan_page_wait is the caller's own wait, and a server that `persists`
 * takes 1 for its client's live byte in place of a load.
 *
 * Only one thread may use an end at a time. A callback must not make a call on the same end. A process and one that
 * it forks use one end only if its struct vchan_page lies in memory that they share, and a lock of theirs is held
 * for each call: a copy has counts of its own, and bytes are lost.
 */
#ifndef VCHAN_PAGE_H
#define VCHAN_PAGE_H

#include "vchan_end.h"
#include <stddef.h>

#define VCHAN_PAGE_VERSION "0.2.0"

#ifdef __cplusplus
extern "C" {
#endif

/* What an end is made of. */
struct vchan_setup {
	enum vchan_role role;
	/* A client is VCHAN_FRESH until vchan_page_connect, or VCHAN_OPEN if it was connected by other means. */
	enum vchan_state state;
	/* The shared page, which begins with the front. */
	struct vchan_front *front;
	/* The ring that the client writes, and the one that the server writes: 1 << order bytes each. */
	void *left, *right;
	uint32_t left_order, right_order;
	/* The end's own counts: of the ring that it writes and of the one that it reads. Both are 0 on a new page;
	 * an end that joins a used page takes them from there once. */
	uint32_t prod, cons;
	/* Signals the peer, as an event channel does. If it returns false, the call returns -1 with the errno that it
	 * left; what the call did on the page stays done. */
	bool (*notify)(void *context);
	/* Takes a signal of the peer without waiting, and returns whether there was one. If it is NULL,
	 * vchan_page_take_event always returns 0. */
	bool (*take_event)(void *context);
	/* Waits for a signal of the peer and takes it; false ends the call that waits. If it is NULL, no call waits. */
	bool (*wait_for_event)(void *context);
	void *context;
	/* Whether a server stays open for one client after another. */
	bool persists;
};

/* The setup may be changed between two calls, but for `role`, `state`, the orders and the counts. */
struct vchan_page {
	struct vchan_end end;
	struct vchan_setup with;
};

/* Where the rings lie, in bytes from the page's first one on, and how long the page is with its rings. */
struct vchan_places {
	size_t left, right, size;
};

/* Tells where the rings of two orders lie: one of order 10 at 1024 of the page and one of order 11 at 2048, as with
 * libxenvchan, and a larger one behind the page, the left one first. Returns 0, or -1 with errno EINVAL if a page
 * can't have the orders: each is from 10 to 20, and not both are 10 nor both 11. */
int vchan_page_places(uint32_t left_order, uint32_t right_order, struct vchan_places *places);

/* Writes the front of a new page, as libxenvchan's server init does: a client may come, and the server asks for
 * signals for data. Returns 0, or -1 with errno EINVAL as vchan_page_places does. */
int vchan_page_lay(struct vchan_front *front, uint32_t left_order, uint32_t right_order);

/* Makes an end. Returns 0, or -1 with errno EINVAL if the setup can't be right: a role, state or order that there
 * isn't, a server that is VCHAN_FRESH, a NULL where none may be, a front that isn't aligned to 4 bytes, or rings that
 * lie on it or on one another. */
int vchan_page_open(struct vchan_page *page, const struct vchan_setup *with);

/*
 * None of these calls waits. They return how many bytes were moved, wait or have room, and 0 if nothing can
 * be moved now; or -1 with errno:
 *   EPIPE     the peer has closed. Bytes of it may still wait: only vchan_page_drain tells the end of the stream
 *   EINVAL    a pointer is NULL, or a drain asks for no byte
 *   ENOTCONN  the end isn't connected, or is shut
 *   EBUSY     the end is inside a call, as when a callback makes one, or a process died in one
 *   EBADF     the 32 bytes of the end are no end's
 * or the errno of a notify that failed. A size above INT_MAX is taken for INT_MAX.
 */
int vchan_page_write(struct vchan_page *page, const void *data, size_t size);
int vchan_page_send(struct vchan_page *page, const void *data, size_t size);
int vchan_page_read(struct vchan_page *page, void *data, size_t size);
int vchan_page_recv(struct vchan_page *page, void *data, size_t size);
int vchan_page_data_ready(struct vchan_page *page);
int vchan_page_buffer_space(struct vchan_page *page);

/* Reads as vchan_page_read does, but -1 with EPIPE means the end of the stream: the peer has closed, and all
 * was read. */
int vchan_page_drain(struct vchan_page *page, void *data, size_t size);

/* Opens a fresh client, as libxenvchan does: it asks for signals for data, and signals. Returns 0, or -1 with
 * errno EPROTO if the page doesn't hold the orders that the end was opened with, EISCONN if the end is open. */
int vchan_page_connect(struct vchan_page *page);

/* Shuts the end and signals the peer. Returns 0, or -1 as above. */
int vchan_page_close(struct vchan_page *page);

/* Returns 1 if the peer is there and 0 if it has closed; 2 if a client may still come. */
int vchan_page_is_open(const struct vchan_page *page);

/* Returns 1 if a signal of the peer was taken, and 0 if there was none. */
int vchan_page_take_event(struct vchan_page *page);

/* Waits for a signal of the peer and takes it. Returns 0, or -1 as the calls below. */
int vchan_page_wait(struct vchan_page *page);

/*
 * These calls wait for signals, until all bytes are written, sent or received, or some are read. They also
 * return -1 if wait_for_event returned false, with the errno that it left; with EAGAIN if it is NULL; and
 * with EMSGSIZE if a send or recv asks for more than its ring holds, or a write for more than INT_MAX. Bytes
 * that vchan_page_write_all wrote before its -1 stay written. A read of no byte waits until there are some.
 */
int vchan_page_write_all(struct vchan_page *page, const void *data, size_t size);
int vchan_page_send_wait(struct vchan_page *page, const void *data, size_t size);
int vchan_page_read_wait(struct vchan_page *page, void *data, size_t size);
int vchan_page_recv_wait(struct vchan_page *page, void *data, size_t size);

/* Waits as vchan_page_read_wait does, but -1 with EPIPE means the end of the stream, as in vchan_page_drain. This is
 * the call for a loop that reads all: it asks for a signal before it looks again, so that none is lost. */
int vchan_page_drain_wait(struct vchan_page *page, void *data, size_t size);

#ifdef __cplusplus
}
#endif

#endif
