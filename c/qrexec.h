/*
 * The messages of qrexec, the service calls of Qubes OS: a reader of a stream in three forms, a writer for each type,
 * the two sides of a call, and a broker's decision on one. All functions but qrexec_call_* are those of the proved library (crates/qrexec_c).
 *
 * What a reader keeps are numbers and bytes of the caller's, in which any bits are allowed: numbers of no reader are
 * answered by QREXEC_REFUSED. Nothing is allocated, no pointer is kept, and no function is called but memcpy,
 * memmove and memset. A pointer to bytes may be NULL if their count is 0. The bytes, the struct and what is found must
 * not overlap, and must not change during a call: on a page that a peer writes, copy the bytes first.
 *
 * The types, bodies and limits are those of docs/QREXEC.md, versions 2 and 3 of the protocol.
 */
#ifndef QREXEC_H
#define QREXEC_H

#include <stdbool.h>
#include <stddef.h>
#include <stdint.h>

#define QREXEC_VERSION "0.1.0"

#ifdef __GNUC__
#define QREXEC_NONNULL(...) __attribute__((nonnull(__VA_ARGS__)))
#else
#define QREXEC_NONNULL(...)
#endif

#ifdef __cplusplus
extern "C" {
#endif

enum qrexec_channel { QREXEC_CONTROL = 0, QREXEC_DATA = 1 };

enum qrexec_kind {
	QREXEC_STDIN = 0x190, /* MSG_DATA_STDIN */
	QREXEC_STDOUT = 0x191, /* MSG_DATA_STDOUT */
	QREXEC_STDERR = 0x192, /* MSG_DATA_STDERR */
	QREXEC_EXIT_CODE = 0x193, /* MSG_DATA_EXIT_CODE */
	QREXEC_EXEC = 0x200, /* MSG_EXEC_CMDLINE */
	QREXEC_JUST_EXEC = 0x201, /* MSG_JUST_EXEC */
	QREXEC_CONNECT = 0x202, /* MSG_SERVICE_CONNECT */
	QREXEC_REFUSED_CALL = 0x203, /* MSG_SERVICE_REFUSED */
	QREXEC_TRIGGER = 0x210, /* MSG_TRIGGER_SERVICE */
	QREXEC_TERMINATED = 0x211, /* MSG_CONNECTION_TERMINATED */
	QREXEC_TRIGGER3 = 0x212, /* MSG_TRIGGER_SERVICE3 */
	QREXEC_HELLO = 0x300, /* MSG_HELLO */
};

/* What is wrong with a stream: the first of these that applies. */
enum qrexec_fault {
	QREXEC_NO_FAULT = 0,
	QREXEC_UNKNOWN_TYPE = 1, /* the channel has no such type */
	QREXEC_TOO_LONG = 2, /* the length is above 65,536 */
	QREXEC_BAD_LENGTH = 3, /* the type has no body of this length */
	QREXEC_NO_NUL = 4, /* a line or a service doesn't end with NUL */
};

/* What a call of a reader returns. */
enum qrexec_answer {
	QREXEC_LESS = 0, /* the message isn't whole yet, and shows no fault */
	QREXEC_FOUND = 1, /* the message was found, or has begun, or has passed */
	QREXEC_FAULTY = 2, /* the reader holds a fault, and will at each later call */
	QREXEC_REFUSED = 3, /* the numbers are those of no reader, or the call isn't allowed now */
	QREXEC_NEXT = 4, /* this message is for qrexec_next */
	QREXEC_TOO_MANY = 5, /* the body has fewer bytes left */
	QREXEC_OVER = 6, /* the caller's session has read the exit code */
};

/* A reader of a channel's messages. */
struct qrexec_reader {
	uint64_t at; /* the offset of the first byte not read, modulo 2^64; with a fault, that of its message */
	uint32_t kind; /* the type in the header of the message at fault */
	uint32_t len; /* the length there, if the fault is QREXEC_TOO_LONG or QREXEC_BAD_LENGTH */
	uint32_t channel; /* enum qrexec_channel */
	uint32_t fault; /* enum qrexec_fault */
};

/* Where a text lies in a message, counted from the first byte of the header. Its NUL isn't counted. */
struct qrexec_span {
	uint32_t at;
	uint32_t len;
};

/* A message. The body lies behind the eight bytes of the header; a field that the type doesn't have is 0. */
struct qrexec_found {
	uint32_t kind; /* enum qrexec_kind */
	uint32_t len; /* of the body */
	uint32_t first; /* the domain; of QREXEC_HELLO the version, and of QREXEC_EXIT_CODE the code's bits */
	uint32_t second; /* the port */
	struct qrexec_span target; /* of a trigger */
	struct qrexec_span ident; /* of a trigger, QREXEC_CONNECT and QREXEC_REFUSED_CALL */
	struct qrexec_span text; /* the service of a trigger, or the line of QREXEC_EXEC and QREXEC_JUST_EXEC */
};

/* Makes a reader at the beginning of a channel's stream. Returns false, and changes nothing, if there is no such
 * channel. */
bool qrexec_reader_init(struct qrexec_reader *reader, uint32_t channel) QREXEC_NONNULL(1);

/* Finds the message at the front of these bytes, which are those of the stream from reader->at on. If it is found, the
 * next call wants the bytes behind it: 8 + found->len further on. Returns QREXEC_LESS, QREXEC_FOUND, QREXEC_FAULTY
 * or QREXEC_REFUSED; `found` and, but for a new fault, the reader change at QREXEC_FOUND alone. */
uint32_t qrexec_next(struct qrexec_reader *reader, const uint8_t *bytes, size_t len, struct qrexec_found *found)
	QREXEC_NONNULL(1, 4);

/* A reader of a data channel whose bodies go elsewhere. A new one has a new reader, and 0 in all else. */
struct qrexec_passing {
	struct qrexec_reader reader; /* stands at the message's first byte until all of it has passed */
	uint32_t kind; /* the type in the last header */
	uint32_t len; /* the length there */
	uint32_t left; /* how many bytes of the body are still to come */
	uint32_t under; /* 1 inside the body of a data message, else 0 */
};

/* Takes the header of the next message: its first eight bytes. QREXEC_FOUND: it is a data message, whose body is passed
 * next. QREXEC_NEXT: it is another message, and nothing but its type and length was taken; its bytes, from the
 * header on, are for qrexec_next(&passing->reader, ..). QREXEC_LESS: these are less than eight bytes. QREXEC_REFUSED also
 * if a message is under way. */
uint32_t qrexec_head(struct qrexec_passing *passing, const uint8_t *header, size_t len) QREXEC_NONNULL(1);

/* Passes this many bytes of the body, wherever they go. QREXEC_FOUND: the message is whole. QREXEC_LESS: its body goes on.
 * QREXEC_REFUSED: no data message is under way. QREXEC_TOO_MANY: the body has fewer bytes left; nothing changes then. A
 * body without bytes is passed by a count of 0. */
uint32_t qrexec_pass(struct qrexec_passing *passing, uint32_t count) QREXEC_NONNULL(1);

/* The length of the longest message that is gathered. */
#define QREXEC_GATHERED 136

/* A reader that keeps the bytes of the message under way. A new one has a new reader, and 0 in `got`. */
struct qrexec_gather {
	struct qrexec_reader reader;
	uint32_t got; /* how many bytes of the message have come */
	uint32_t taken; /* how many bytes of the last piece were taken */
	uint8_t bytes[QREXEC_GATHERED];
};

/* Takes bytes of the next piece of the stream, up to the end of the message. QREXEC_FOUND: the message was found, its
 * bytes lie in gather->bytes until the next call, and the rest of the piece, from gather->taken on, is for the next
 * call. QREXEC_LESS: the whole piece was taken, and the message goes on. QREXEC_NEXT: the message is longer than
 * QREXEC_GATHERED; its header lies in gather->bytes. Append the rest of it, give all to qrexec_next(&gather->reader, ..),
 * and set gather->got to 0. */
uint32_t qrexec_gather(struct qrexec_gather *gather, const uint8_t *piece, size_t len, struct qrexec_found *found)
	QREXEC_NONNULL(1, 4);

/* The writers. Each returns how many bytes it wrote at `out`, which has room for `room` bytes. It returns 0, and writes
 * nothing, if and only if there is no room for the whole message, or a text has a NUL or too many bytes for its field:
 * 31 in an ident and in a trigger's target, 63 in a trigger's service and a trigger3's target, 65,527 in a line,
 * 65,439 in a trigger3's service, and 65,536 in a data message. */
size_t qrexec_put_hello(uint8_t *out, size_t room, uint32_t version);
size_t qrexec_put_stdin(uint8_t *out, size_t room, const uint8_t *bytes, size_t len);
size_t qrexec_put_stdout(uint8_t *out, size_t room, const uint8_t *bytes, size_t len);
size_t qrexec_put_stderr(uint8_t *out, size_t room, const uint8_t *bytes, size_t len);
size_t qrexec_put_exit_code(uint8_t *out, size_t room, int32_t code);
size_t qrexec_put_exec(uint8_t *out, size_t room, uint32_t domain, uint32_t port, const uint8_t *line, size_t len);
size_t qrexec_put_just_exec(uint8_t *out, size_t room, uint32_t domain, uint32_t port, const uint8_t *line, size_t len);
size_t qrexec_put_connect(uint8_t *out, size_t room, uint32_t domain, uint32_t port, const uint8_t *ident, size_t len);
size_t qrexec_put_refused(uint8_t *out, size_t room, const uint8_t *ident, size_t len);
size_t qrexec_put_terminated(uint8_t *out, size_t room, uint32_t domain, uint32_t port);
size_t qrexec_put_trigger3(uint8_t *out, size_t room, const uint8_t *target, size_t target_len, const uint8_t *ident,
			   size_t ident_len, const uint8_t *service, size_t service_len);
size_t qrexec_put_trigger(uint8_t *out, size_t room, const uint8_t *target, size_t target_len, const uint8_t *ident,
			  size_t ident_len, const uint8_t *service, size_t service_len);

/* ---- one side of a call, on a data channel */

/* The one that makes the call sends the input, and the one that serves it both outputs and the exit code. */
enum qrexec_side { QREXEC_CALLER = 0, QREXEC_SERVING = 1 };

/* What is wrong with the messages of the other side. */
enum qrexec_session_fault {
	QREXEC_WRONG_SIDE = 1, /* it may not send such a message after its greeting */
	QREXEC_AFTER_END = 2, /* the message's stream had ended */
	QREXEC_NOT_HELLO = 3, /* its first message is no greeting */
	QREXEC_LOW_VERSION = 4, /* its version is below 2 */
};

struct qrexec_session {
	struct qrexec_reader reader; /* of what comes; with a fault it stands at that message, whose type is reader.kind */
	uint32_t side; /* enum qrexec_side */
	uint32_t own; /* the version of its own greeting */
	uint32_t version; /* that both go on with, or 0 before the other greeting; with QREXEC_LOW_VERSION that one's */
	uint32_t greeted; /* 1 if its own greeting has gone */
	uint32_t stdin_ended, stdout_ended, stderr_ended; /* 1 if the stream has ended */
	uint32_t exited; /* 1 if the exit code has come, or has gone */
	int32_t code; /* the exit code that has come */
	uint32_t fault; /* enum qrexec_session_fault, or 0; a fault of the bytes is reader.fault */
};

/* Makes a side of a call, of version 2 or 3. Returns false, and changes nothing, if a number is another. */
bool qrexec_session_init(struct qrexec_session *session, uint32_t side, uint32_t version) QREXEC_NONNULL(1);

/* Finds the message at the front of these bytes, as qrexec_next does, and takes it if the other side may send it.
 * Returns QREXEC_LESS, QREXEC_FOUND, QREXEC_FAULTY, QREXEC_REFUSED or QREXEC_OVER. Nothing changes but at QREXEC_FOUND
 * and at a new fault. */
uint32_t qrexec_session_next(struct qrexec_session *session, const uint8_t *bytes, size_t len, struct qrexec_found *found)
	QREXEC_NONNULL(1, 4);

/* Whether the side may send a message of this type, whose body has `len` bytes, next. Its greeting comes first, and of
 * the side that serves only after the caller's; all else comes after both greetings. A body has at most 4,096 bytes in
 * version 2 and 65,536 in version 3. A message without bytes ends its stream; the exit code comes after the ends of
 * both outputs. Nothing may be sent after a fault. */
bool qrexec_session_may_send(const struct qrexec_session *session, uint32_t kind, uint32_t len) QREXEC_NONNULL(1);

/* Takes a message that is to be sent. Returns false, and changes nothing, if it may not be sent. */
bool qrexec_session_sent(struct qrexec_session *session, uint32_t kind, uint32_t len) QREXEC_NONNULL(1);

/* ---- a broker's decision on a call between two domains */

/* The calls from one domain to another. A new one has 0 in all. A call that has ended is taken out of `live` by the
 * caller, and the others keep their order. */
struct qrexec_pair {
	uint32_t live[16]; /* the ports of the live calls, the oldest first */
	uint32_t live_count; /* how many there are */
	uint32_t calls; /* how many were accepted, at most 65,536 */
};

enum qrexec_decision {
	QREXEC_NO_PAIR = 0, /* the numbers are those of no pair */
	QREXEC_ACCEPTED = 1, /* the call has the port that is told */
	QREXEC_TARGET_DROPPED = 2, /* the target was dropped */
	QREXEC_PAIR_FULL = 3, /* as many calls as may be are live, which is told */
	QREXEC_PORTS_SPENT = 4, /* each page had its call; the port that would come next is told */
};

/* Decides on a call from a domain, by its number, to another one, of a service that there is, and enters it if it is
 * accepted. `pages` is how many calls the pair can have in all, and `dropped` isn't 0 if the target was dropped. Returns
 * enum qrexec_decision, the first cause that applies. */
uint32_t qrexec_pair_call(struct qrexec_pair *pair, uint32_t from, uint32_t to, uint32_t pages, uint32_t dropped,
			  uint32_t *told) QREXEC_NONNULL(1, 6);

/* ---- a call over a vchan: c/qrexec.c, which is not proved */

/* The length of the longest message of a data channel. */
#define QREXEC_MESSAGE 65544

struct vchan_page;

/* One side of a call, and the messages that it gets and sends. */
struct qrexec_call {
	struct qrexec_session session;
	struct vchan_page *page;
	size_t in_at, in_len, out_at, out_len; /* of `out` the bytes from out_at on wait to be sent */
	uint8_t in[QREXEC_MESSAGE], out[QREXEC_MESSAGE];
};

/*
 * These calls wait by the wait_for_event of the page's setup; if that is NULL, none waits. They return -1 with errno
 *   EPROTO     the session holds a fault, which session.fault or session.reader.fault tells
 *   EPERM      the session may not send that now
 *   ESHUTDOWN  the exit code has been read
 * or that of the page's calls: EPIPE if the other side has closed.
 */

/* Opens a side of a call on an open end of a page. A caller sends its greeting, and the side that serves answers the
 * one that it reads. Also -1 with EINVAL if there is no such side or version. */
int qrexec_call_open(struct qrexec_call *call, struct vchan_page *page, uint32_t side, uint32_t version)
	QREXEC_NONNULL(1, 2);

/* Finds the next message, and sends what waits if none has come. Returns 1 if `found` tells it: its body, `found->len`
 * bytes, lies at `*body` until the next call. Returns 0 if none has come, and no call waits. */
int qrexec_call_read(struct qrexec_call *call, struct qrexec_found *found, const uint8_t **body) QREXEC_NONNULL(1, 2, 3);

/* Sends bytes of a stream, in messages of at most as many bytes as the version has; a count of 0 ends the stream. Of
 * QREXEC_EXIT_CODE the bytes are an int32_t. It first reads the other side's greeting, if that wasn't read. Returns how
 * many bytes were taken: all of them if calls wait, else those of one message at most, and -1 with EAGAIN if what was
 * taken before hasn't gone yet. */
int qrexec_call_write(struct qrexec_call *call, uint32_t kind, const void *bytes, size_t len) QREXEC_NONNULL(1);

/* Sends what was taken. Returns 1 if all has gone, and 0 if there is no room now, and no call waits. */
int qrexec_call_flush(struct qrexec_call *call) QREXEC_NONNULL(1);

/* Sends what waits, and closes the page's end. Returns 0, or -1. */
int qrexec_call_close(struct qrexec_call *call) QREXEC_NONNULL(1);

#ifdef __cplusplus
}
#endif

#endif
