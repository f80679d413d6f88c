/*
 * One end of a vchan as the proved library has it (crates/vchan_c). It knows no memory: it tells its
 * caller which bytes to move and which words of the shared page to load or store, and takes the values
 * that were found there. vchan_page.h makes whole calls from it.
 */
#ifndef VCHAN_END_H
#define VCHAN_END_H

#include <assert.h>
#include <stdbool.h>
#include <stdint.h>

#ifdef __cplusplus
extern "C" {
#endif

enum vchan_role { VCHAN_SERVER, VCHAN_CLIENT };
enum vchan_state { VCHAN_FRESH, VCHAN_OPEN, VCHAN_SHUT };

enum vchan_call {
	VCHAN_WRITE = 1, VCHAN_SEND, VCHAN_READ, VCHAN_RECV, VCHAN_DRAIN, VCHAN_DATA_READY, VCHAN_BUFFER_SPACE,
	VCHAN_CONNECT, VCHAN_CLOSE, VCHAN_TAKE_EVENT
};

/* The reasons why an end can't begin a call; VCHAN_BEGUN is none. */
enum vchan_refusal {
	VCHAN_BEGUN, VCHAN_BUSY, VCHAN_IS_SHUT, VCHAN_UNCONNECTED, VCHAN_IS_CONNECTED, VCHAN_NO_BYTES, VCHAN_NO_CALL,
	VCHAN_NO_END
};

/* What a step awaits: nothing, since it has the answer; the value of a word; or only that the caller goes on.
 * With VCHAN_NOTIFY it has the answer, and the caller ends the call with a notify: it clears the bits in the
 * word, at once, and signals the peer if the word had them. With VCHAN_ANNOUNCE it has the answer of a connect, and
 * the caller ends that as libxenvchan does: it sets the bits in the word, at once, and then signals the peer. */
enum vchan_kind { VCHAN_ANSWER, VCHAN_LOAD, VCHAN_OR, VCHAN_NOTIFY, VCHAN_SWAP, VCHAN_FURTHER, VCHAN_ANNOUNCE };

enum vchan_moves { VCHAN_NOTHING, VCHAN_PUT, VCHAN_TAKE };

enum vchan_answer {
	VCHAN_WROTE = 1, VCHAN_FULL, VCHAN_SENT, VCHAN_NO_ROOM, VCHAN_GOT, VCHAN_EMPTY, VCHAN_SHORT, VCHAN_PEER_CLOSED,
	VCHAN_READY, VCHAN_SPACE, VCHAN_CONNECTED, VCHAN_BAD_ORDERS, VCHAN_DONE, VCHAN_EVENT, VCHAN_NOT_YET,
	VCHAN_ALL_READ, VCHAN_PEER_GONE, VCHAN_GONE
};

/* The front of the shared page: Xen's struct vchan_interface (xen/include/public/io/libxenvchan.h) without its
 * list of grants. The client writes the left ring, and the server the right one. */
struct vchan_front {
	uint32_t left_cons, left_prod, right_cons, right_prod;
	uint16_t left_order, right_order;
	uint8_t cli_live, srv_live;
	uint8_t cli_notify, srv_notify;
};

/* Opaque. Any bytes are allowed: bytes that are no end's are refused. */
struct vchan_end {
	uint32_t numbers[8];
};

/* What the caller does, in this order: it moves bytes, stores, signals, makes the event that is awaited, and
 * then, unless its value was 0, loads the word to look at. A word lies at an offset of struct vchan_front,
 * and its width is in bytes; if the width is 0, there is no such word. */
struct vchan_step {
	uint8_t kind, width;
	uint16_t offset;
	uint8_t moves, ring; /* the ring: 0 left, 1 right */
	uint8_t store_width, signals;
	uint16_t store_offset;
	uint8_t answer, look_width;
	uint32_t place, at, first, second; /* bytes: `first` from `place` on, `second` from the ring's front on */
	uint32_t answer_first, answer_second;
	uint16_t look_offset, spare;
	uint64_t stored, bits;
};

static_assert(sizeof(struct vchan_front) == 24, "the front is 24 bytes");
static_assert(sizeof(struct vchan_end) == 32, "an end is 32 bytes");
static_assert(sizeof(struct vchan_step) == 56, "a step is 56 bytes");

/* Makes an end between two calls. Returns false, and changes nothing, if the numbers are those of no end. */
bool vchan_end_init(struct vchan_end *end, uint32_t role, uint32_t state, uint32_t left_order, uint32_t right_order,
		    uint32_t prod, uint32_t cons);

/* Begins a call. Returns an enum vchan_refusal. The end and the step change only if that is VCHAN_BEGUN. */
uint8_t vchan_end_begin(struct vchan_end *end, uint8_t call, uint32_t len, struct vchan_step *step);

/* Takes the awaited value and that of the word that was looked at, and tells the next step. Returns false, and
 * changes nothing, if the end is between two calls or the bytes are no end's. */
bool vchan_end_took(struct vchan_end *end, uint64_t value, uint64_t look, struct vchan_step *step);

/* The offset of the byte that tells an end of this role whether its peer is there, or 0 for no role. */
uint16_t vchan_end_live(uint8_t role);

/* What that byte tells: 0 the peer has closed, 1 it is there, 2 a client may still come. */
uint8_t vchan_end_is_open(uint8_t role, bool persists, uint8_t live);

#ifdef __cplusplus
}
#endif

#endif
