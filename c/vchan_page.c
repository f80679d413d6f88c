#include "vchan_page.h"
#include <errno.h>
#include <limits.h>
#include <string.h>

/* NOTHING_NOW is what a call that waits is told if nothing can be moved now. */
enum { PAGE_SIZE = 4096, GREATEST_IN_PAGE = 11, NOTHING_NOW = -2 };

static int refuse(int error)
{
	errno = error;
	return -1;
}

static size_t size_of(uint32_t order) { return (size_t)1 << order; }
static uint8_t *byte_at(const struct vchan_page *page, uint16_t offset) { return (uint8_t *)page->with.front + offset; }

/* Each load and each store is a single access, and all are sequentially consistent. */
static uint64_t load(const struct vchan_page *page, uint16_t offset, uint8_t width)
{
	void *word = byte_at(page, offset);

	if (width == 4)
		return __atomic_load_n((uint32_t *)word, __ATOMIC_SEQ_CST);
	if (width == 2)
		return __atomic_load_n((uint16_t *)word, __ATOMIC_SEQ_CST);
	return __atomic_load_n((uint8_t *)word, __ATOMIC_SEQ_CST);
}

static void store(const struct vchan_page *page, uint16_t offset, uint8_t width, uint64_t value)
{
	void *word = byte_at(page, offset);

	if (width == 4)
		__atomic_store_n((uint32_t *)word, (uint32_t)value, __ATOMIC_SEQ_CST);
	else
		__atomic_store_n((uint8_t *)word, (uint8_t)value, __ATOMIC_SEQ_CST);
}

static void move_bytes(const struct vchan_page *page, const struct vchan_step *step, const uint8_t *out, uint8_t *in)
{
	uint8_t *ring = step->ring ? page->with.right : page->with.left;

	if (step->moves == VCHAN_PUT) {
		memcpy(ring + step->place, out + step->at, step->first);
		if (step->second)
			memcpy(ring, out + step->at + step->first, step->second);
	} else {
		memcpy(in + step->at, ring + step->place, step->first);
		if (step->second)
			memcpy(in + step->at + step->first, ring, step->second);
	}
}

/* Ends a call. Returns false if the peer can't be signalled. An and that finds none of its bits changes nothing, so a
 * load that finds none is that and. */
static bool end_call(const struct vchan_page *page, const struct vchan_step *step)
{
	uint8_t *word = byte_at(page, step->offset), bits = (uint8_t)step->bits, asked;

	if (step->kind == VCHAN_NOTIFY) {
		__atomic_load(word, &asked, __ATOMIC_SEQ_CST);
		asked = asked & bits ? __atomic_fetch_and(word, (uint8_t)~bits, __ATOMIC_SEQ_CST) & bits : 0;
		return !asked || page->with.notify(page->with.context);
	}
	if (step->kind == VCHAN_ANNOUNCE) {
		__atomic_fetch_or(word, bits, __ATOMIC_SEQ_CST);
		return page->with.notify(page->with.context);
	}
	return true;
}

/* Returns the value of what a step awaits, or 0. Of the words that the page doesn't have, only the own signal can be
 * set. */
static uint64_t awaited(const struct vchan_page *page, const struct vchan_step *step)
{
	if (step->width == 0)
		return step->kind == VCHAN_SWAP && page->with.take_event && page->with.take_event(page->with.context);
	if (step->kind == VCHAN_OR)
		return __atomic_fetch_or(byte_at(page, step->offset), (uint8_t)step->bits, __ATOMIC_SEQ_CST);
	if (page->with.persists && step->offset == offsetof(struct vchan_front, cli_live))
		return 1;
	return load(page, step->offset, step->width);
}

/* The errno of each enum vchan_refusal. */
static const int refusals[] = { 0, EBUSY, ENOTCONN, ENOTCONN, EISCONN, EINVAL, EINVAL, EBADF };

/* What an enum vchan_answer comes to: an errno, NOTHING_NOW, or else its count. */
static const int answers[VCHAN_GONE + 1] = {
	[VCHAN_FULL] = NOTHING_NOW, [VCHAN_NO_ROOM] = NOTHING_NOW, [VCHAN_EMPTY] = NOTHING_NOW, [VCHAN_SHORT] = NOTHING_NOW,
	[VCHAN_NOT_YET] = NOTHING_NOW, [VCHAN_PEER_CLOSED] = EPIPE, [VCHAN_ALL_READ] = EPIPE, [VCHAN_PEER_GONE] = EPIPE,
	[VCHAN_BAD_ORDERS] = EPROTO,
};

static int answer(const struct vchan_step *step, int nothing)
{
	int is = answers[step->answer];

	return is > 0 ? refuse(is) : is ? nothing : (int)step->answer_first;
}

/* Makes a whole call. Returns how many bytes it moved or counted, `nothing` if none can be now, or -1 with errno. */
static int make(struct vchan_page *page, enum vchan_call call, size_t size, const void *out, void *in, int nothing)
{
	struct vchan_step step;
	uint64_t value, look;
	uint8_t why;
	bool heard = true;

	if (!page || (size && !out && !in))
		return refuse(EINVAL);
	why = vchan_end_begin(&page->end, (uint8_t)call, size > INT_MAX ? INT_MAX : (uint32_t)size, &step);
	if (why != VCHAN_BEGUN)
		return refuse(refusals[why]);
	for (;;) {
		if (step.moves)
			move_bytes(page, &step, out, in);
		if (step.store_width)
			store(page, step.store_offset, step.store_width, step.stored);
		if (step.signals)
			heard = page->with.notify(page->with.context);
		if (step.kind == VCHAN_ANSWER || step.kind == VCHAN_NOTIFY || step.kind == VCHAN_ANNOUNCE)
			return end_call(page, &step) && heard ? answer(&step, nothing) : -1;
		value = awaited(page, &step);
		look = step.look_width && value ? load(page, step.look_offset, step.look_width) : 0;
		if (!vchan_end_took(&page->end, value, look, &step))
			return refuse(EBADF);
	}
}

int vchan_page_write(struct vchan_page *page, const void *data, size_t size) { return make(page, VCHAN_WRITE, size, data, NULL, 0); }
int vchan_page_send(struct vchan_page *page, const void *data, size_t size) { return make(page, VCHAN_SEND, size, data, NULL, 0); }
int vchan_page_read(struct vchan_page *page, void *data, size_t size) { return make(page, VCHAN_READ, size, NULL, data, 0); }
int vchan_page_recv(struct vchan_page *page, void *data, size_t size) { return make(page, VCHAN_RECV, size, NULL, data, 0); }
int vchan_page_drain(struct vchan_page *page, void *data, size_t size) { return make(page, VCHAN_DRAIN, size, NULL, data, 0); }
int vchan_page_data_ready(struct vchan_page *page) { return make(page, VCHAN_DATA_READY, 0, NULL, NULL, 0); }
int vchan_page_buffer_space(struct vchan_page *page) { return make(page, VCHAN_BUFFER_SPACE, 0, NULL, NULL, 0); }
int vchan_page_take_event(struct vchan_page *page) { return make(page, VCHAN_TAKE_EVENT, 0, NULL, NULL, 0); }
int vchan_page_connect(struct vchan_page *page) { return make(page, VCHAN_CONNECT, 0, NULL, NULL, 0); }
int vchan_page_close(struct vchan_page *page) { return make(page, VCHAN_CLOSE, 0, NULL, NULL, 0); }

int vchan_page_is_open(const struct vchan_page *page)
{
	uint8_t role = page ? (uint8_t)page->with.role : 0;

	return page && page->with.front ? vchan_end_is_open(role, page->with.persists, (uint8_t)load(page, vchan_end_live(role), 1)) : 0;
}

int vchan_page_wait(struct vchan_page *page)
{
	if (!page || !page->with.wait_for_event)
		return refuse(page ? EAGAIN : EINVAL);
	return page->with.wait_for_event(page->with.context) ? 0 : -1;
}

/* Makes a call again after each signal, while nothing can be moved. */
static int make_waiting(struct vchan_page *page, enum vchan_call call, size_t size, const void *out, void *in)
{
	int count;

	while ((count = make(page, call, size, out, in, NOTHING_NOW)) == NOTHING_NOW)
		if (vchan_page_wait(page))
			return -1;
	return count;
}

/* A packet of more bytes than its ring holds is refused at once, and not waited for. */
static int packet_waiting(struct vchan_page *page, enum vchan_call call, size_t size, const void *out, void *in)
{
	bool is_left = page && (page->with.role == VCHAN_CLIENT) == (call == VCHAN_SEND);

	if (page && size > size_of(is_left ? page->with.left_order : page->with.right_order))
		return refuse(EMSGSIZE);
	return make_waiting(page, call, size, out, in);
}

int vchan_page_read_wait(struct vchan_page *page, void *data, size_t size) { return make_waiting(page, VCHAN_READ, size, NULL, data); }
int vchan_page_drain_wait(struct vchan_page *page, void *data, size_t size) { return make_waiting(page, VCHAN_DRAIN, size, NULL, data); }
int vchan_page_send_wait(struct vchan_page *page, const void *data, size_t size) { return packet_waiting(page, VCHAN_SEND, size, data, NULL); }
int vchan_page_recv_wait(struct vchan_page *page, void *data, size_t size) { return packet_waiting(page, VCHAN_RECV, size, NULL, data); }

int vchan_page_write_all(struct vchan_page *page, const void *data, size_t size)
{
	if (size > INT_MAX)
		return refuse(EMSGSIZE);
	for (size_t done = 0;;) {
		int count = make_waiting(page, VCHAN_WRITE, size - done, data ? (const uint8_t *)data + done : NULL, NULL);

		if (count < 0)
			return -1;
		done += (size_t)count;
		if (done == size)
			return (int)size;
	}
}

/* A ring that the page has no place for lies behind what there is already. */
static size_t place(uint32_t order, size_t *behind)
{
	size_t size = size_of(order);

	if (order <= GREATEST_IN_PAGE)
		return size;
	*behind += size;
	return *behind - size;
}

int vchan_page_places(uint32_t left_order, uint32_t right_order, struct vchan_places *places)
{
	struct vchan_end any;

	if (!places || !vchan_end_init(&any, VCHAN_SERVER, VCHAN_OPEN, left_order, right_order, 0, 0))
		return refuse(EINVAL);
	places->size = PAGE_SIZE;
	places->left = place(left_order, &places->size);
	places->right = place(right_order, &places->size);
	return 0;
}

int vchan_page_lay(struct vchan_front *front, uint32_t left_order, uint32_t right_order)
{
	struct vchan_places places;

	if (!front || vchan_page_places(left_order, right_order, &places))
		return refuse(EINVAL);
	*front = (struct vchan_front){ .left_order = (uint16_t)left_order, .right_order = (uint16_t)right_order,
				       .cli_live = 2, .srv_live = 1, .cli_notify = 1 };
	return 0;
}

static bool are_apart(const void *one, size_t size, const void *other, size_t other_size)
{
	uintptr_t a = (uintptr_t)one, b = (uintptr_t)other;

	return a < b ? size <= b - a : other_size <= a - b;
}

int vchan_page_open(struct vchan_page *page, const struct vchan_setup *with)
{
	struct vchan_page made;

	if (!page || !with || !with->front || (uintptr_t)with->front % sizeof(uint32_t) || !with->left || !with->right || !with->notify)
		return refuse(EINVAL);
	if (!vchan_end_init(&made.end, with->role, with->state, with->left_order, with->right_order, with->prod, with->cons))
		return refuse(EINVAL);
	if (!are_apart(with->left, size_of(with->left_order), with->right, size_of(with->right_order)) ||
	    !are_apart(with->front, sizeof *with->front, with->left, size_of(with->left_order)) ||
	    !are_apart(with->front, sizeof *with->front, with->right, size_of(with->right_order)))
		return refuse(EINVAL);
	made.with = *with;
	*page = made;
	return 0;
}
