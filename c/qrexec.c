/*
 * A qrexec call over a vchan. It is not proved: the proved library finds and writes the messages, and says which may come
 * and go; this file moves their bytes between two buffers and the page.
 */
#include "qrexec.h"
#include "vchan_page.h"
#include <errno.h>
#include <limits.h>
#include <string.h>

enum { HEADER = 8 };

static int fails(int number)
{
	errno = number;
	return -1;
}

static bool waits(const struct qrexec_call *call) { return call->page->with.wait_for_event; }

/* Sends what waits. Returns 1 if all has gone, and 0 if the ring has no room. */
static int flush(struct qrexec_call *call)
{
	while (call->out_at < call->out_len) {
		int count = vchan_page_write(call->page, call->out + call->out_at, call->out_len - call->out_at);

		if (count <= 0)
			return count;
		call->out_at += (size_t)count;
	}
	return 1;
}

int qrexec_call_flush(struct qrexec_call *call)
{
	int gone;

	while (!(gone = flush(call)) && waits(call))
		if (vchan_page_wait(call->page))
			return -1;
	return gone;
}

/* Lays a message into `out`, from which all has gone. */
static int lay(struct qrexec_call *call, uint32_t kind, const void *bytes, size_t len)
{
	uint8_t *out = call->out;
	size_t room = sizeof call->out;
	int32_t code;

	if (!qrexec_session_sent(&call->session, kind, (uint32_t)len))
		return fails(call->session.fault || call->session.reader.fault ? EPROTO : EPERM);
	if (kind == QREXEC_EXIT_CODE)
		memcpy(&code, bytes, sizeof code), call->out_len = qrexec_put_exit_code(out, room, code);
	else
		call->out_len = kind == QREXEC_HELLO ? qrexec_put_hello(out, room, call->session.own) :
				kind == QREXEC_STDIN ? qrexec_put_stdin(out, room, bytes, len) :
				kind == QREXEC_STDOUT ? qrexec_put_stdout(out, room, bytes, len) :
							qrexec_put_stderr(out, room, bytes, len);
	call->out_at = 0;
	return 0;
}

/* Finds the next message. The side that serves answers a greeting. */
static int take(struct qrexec_call *call, struct qrexec_found *found)
{
	for (;;) {
		int got;

		switch (qrexec_session_next(&call->session, call->in + call->in_at, call->in_len - call->in_at, found)) {
		case QREXEC_FOUND:
			call->in_at += HEADER + found->len;
			return found->kind == QREXEC_HELLO && call->session.side == QREXEC_SERVING && lay(call, QREXEC_HELLO, NULL, 4) ? -1 : 1;
		case QREXEC_LESS:
			break;
		case QREXEC_OVER:
			return fails(ESHUTDOWN);
		default:
			return fails(EPROTO);
		}
		/* What the other side sent before it closed is still read. */
		if (flush(call) < 0 && errno == EPIPE)
			call->out_at = call->out_len;
		memmove(call->in, call->in + call->in_at, call->in_len - call->in_at);
		call->in_len -= call->in_at, call->in_at = 0;
		got = vchan_page_drain(call->page, call->in + call->in_len, sizeof call->in - call->in_len);
		if (got < 0 || (!got && !waits(call)))
			return got;
		if (!got && vchan_page_wait(call->page))
			return -1;
		call->in_len += (size_t)got;
	}
}

int qrexec_call_open(struct qrexec_call *call, struct vchan_page *page, uint32_t side, uint32_t version)
{
	if (!qrexec_session_init(&call->session, side, version))
		return fails(EINVAL);
	call->page = page;
	call->in_at = call->in_len = call->out_at = call->out_len = 0;
	return side == QREXEC_CALLER && (lay(call, QREXEC_HELLO, NULL, 4) || flush(call) < 0) ? -1 : 0;
}

int qrexec_call_read(struct qrexec_call *call, struct qrexec_found *found, const uint8_t **body)
{
	int answer = take(call, found);

	if (answer == 1)
		*body = call->in + call->in_at - found->len;
	return answer;
}

/* Returns 1 once both sides have greeted and all has gone, 0 if that isn't so now. */
static int ready(struct qrexec_call *call)
{
	struct qrexec_found found;
	int answer = call->session.version ? 1 : take(call, &found);

	return answer == 1 ? qrexec_call_flush(call) : answer;
}

int qrexec_call_write(struct qrexec_call *call, uint32_t kind, const void *bytes, size_t len)
{
	size_t done = 0;

	if (len > INT_MAX || (kind == QREXEC_EXIT_CODE && len != sizeof(int32_t)))
		return fails(EINVAL);
	do {
		int answer = ready(call);
		size_t most = call->session.version < 3 ? 4096 : 65536, count = len - done < most ? len - done : most;

		if (answer <= 0)
			return answer ? -1 : fails(EAGAIN);
		if (lay(call, kind, (const uint8_t *)bytes + done, count))
			return -1;
		done += count;
	} while (waits(call) && done < len);
	return qrexec_call_flush(call) < 0 ? -1 : (int)done;
}

int qrexec_call_close(struct qrexec_call *call)
{
	int gone = qrexec_call_flush(call), error = errno;

	if (vchan_page_close(call->page))
		return -1;
	return gone < 0 ? fails(error) : 0;
}
