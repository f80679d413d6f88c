/*
 * A call between two processes, by the messages of qrexec over a vchan:
 *
 *     cc -o qrexec-call qrexec-call.c $(pkg-config --cflags --libs qrexec vchan)
 *     ./qrexec-call [--at SOCKET] --serve COMMAND [WORD..]     serves one call after another by this command
 *     ./qrexec-call [--at SOCKET] <INPUT                       makes a call: input, both outputs and exit code pass through
 *     ./qrexec-call [--at SOCKET] --record FILE <INPUT         also writes what it got: xxd -p FILE | vchan decode data
 *
 * The server hands a page in a memfd and two eventfds to each client, by a socket that both then keep open: its end
 * tells that the other process is gone, as Xen would. On the page go the messages of a data channel: the caller's
 * greeting and its input, then the server's greeting, the command's outputs and its exit code; the end of a stream is
 * a message without bytes. The proved library finds and writes the messages, and says which may come and go.
 */
#define _GNU_SOURCE
#include <qrexec.h>
#include <vchan_page.h>
#include <err.h>
#include <errno.h>
#include <fcntl.h>
#include <poll.h>
#include <signal.h>
#include <spawn.h>
#include <stdio.h>
#include <stdlib.h>
#include <string.h>
#include <sys/eventfd.h>
#include <sys/mman.h>
#include <sys/socket.h>
#include <sys/un.h>
#include <sys/wait.h>
#include <unistd.h>

extern char **environ;

enum { VERSION = 3, LEFT_ORDER = 18, RIGHT_ORDER = 18, HEADER = 8, MOST = 65536, NONE = -1 };

static int record = NONE;

/* One side of a call. The fds of its streams are NONE once they have ended. */
struct side {
	bool serves;
	struct vchan_page end;
	struct vchan_front *front;
	int socket, own, peer; /* the peer's process; the eventfd that wakes this side, and that of the peer */
	struct qrexec_call call;
	int from[2]; /* what this side sends: of a caller its input, else the command's outputs */
	int to[2]; /* what it gets: of a caller the outputs, else the command's input */
	pid_t command;
	bool is_over;
	int32_t code;
	/* The body of a message that is written out. */
	const uint8_t *body;
	size_t body_len;
	int body_to;
};

static bool notify(void *context)
{
	uint64_t one = 1;

	return write(((struct side *)context)->peer, &one, sizeof one) == sizeof one;
}

static int fail(struct side *side, const char *what)
{
	fprintf(stderr, "qrexec-call: %s\n", what);
	side->is_over = true, side->code = 255;
	return 0;
}

static int fail_at(struct side *side)
{
	static const char *const what[] = {"", "may not send such a message", "sends behind a stream's end", "doesn't greet", "has a version below 2"};
	const struct qrexec_session *session = &side->call.session;

	if (errno == EPIPE)
		return fail(side, "the other side is gone");
	if (errno != EPROTO)
		return fail(side, strerror(errno));
	fprintf(stderr, "qrexec-call: byte %llu: the other side %s\n", (unsigned long long)session->reader.at,
		session->fault ? what[session->fault] : "sends no message of a data channel");
	side->is_over = true, side->code = 255;
	return 0;
}

/* Reads the messages that have come, up to one whose body has to be written out first. */
static bool get(struct side *side)
{
	struct qrexec_found found;
	bool moved = false;
	int got = 0;

	while (!side->is_over && !side->body_len && (got = qrexec_call_read(&side->call, &found, &side->body)) == 1) {
		int stream = found.kind == QREXEC_STDERR;

		moved = true;
		if (record != NONE && write(record, side->body - HEADER, HEADER + found.len) != (ssize_t)(HEADER + found.len))
			err(1, "the record");
		if (found.kind == QREXEC_EXIT_CODE)
			side->is_over = true, side->code = side->call.session.code;
		else if (found.kind != QREXEC_HELLO && found.len)
			side->body_len = found.len, side->body_to = side->to[stream];
		else if (found.kind == QREXEC_STDIN && side->to[0] != NONE)
			close(side->to[0]), side->to[0] = NONE; /* the end of the command's input */
	}
	return got < 0 ? fail_at(side) : moved;
}

/* Writes a part of a body where it goes, which poll said takes some; of a command that reads no more it is dropped. */
static void write_body(struct side *side)
{
	size_t most = side->body_len < 4096 ? side->body_len : 4096; /* no more than a pipe surely takes */
	ssize_t wrote = side->body_to == NONE ? (ssize_t)most : write(side->body_to, side->body, most);

	if (wrote < 0 && errno != EPIPE)
		fail(side, strerror(errno));
	if (wrote < 0 && side->serves && side->to[0] != NONE)
		close(side->to[0]), side->to[0] = side->body_to = NONE;
	side->body += wrote < 0 ? most : (size_t)wrote, side->body_len -= wrote < 0 ? most : (size_t)wrote;
}

/* Whether all that was taken has gone. */
static bool has_gone(const struct side *side) { return side->call.out_at == side->call.out_len; }

/* Sends what waits. A caller whose peer reads no more still gets what that one sent. */
static bool send_on(struct side *side)
{
	size_t before = side->call.out_at;

	if (qrexec_call_flush(&side->call) < 0) {
		if (errno != EPIPE)
			return fail_at(side);
		side->call.out_at = side->call.out_len;
	}
	return side->call.out_at != before;
}

/* Sends the bytes that can be read now, or the stream's end. */
static void read_from(struct side *side, int stream)
{
	static uint8_t bytes[MOST];
	ssize_t count = read(side->from[stream], bytes, side->call.session.version < 3 ? 4096 : MOST);
	uint32_t kind = !side->serves ? QREXEC_STDIN : stream ? QREXEC_STDERR : QREXEC_STDOUT;

	if (count < 0)
		return (void)fail(side, strerror(errno));
	if (!count)
		close(side->from[stream]), side->from[stream] = NONE;
	if (qrexec_call_write(&side->call, kind, bytes, (size_t)count) < 0 && errno != EPIPE)
		fail_at(side);
}

/* Sends the exit code after both outputs. */
static void send_code(struct side *side)
{
	int status;

	waitpid(side->command, &status, 0), side->command = 0;
	side->code = WIFEXITED(status) ? WEXITSTATUS(status) : 128 + WTERMSIG(status);
	if (qrexec_call_write(&side->call, QREXEC_EXIT_CODE, &side->code, sizeof side->code) < 0 && errno != EPIPE)
		fail_at(side);
}

/* Moves what can be moved, until the call is over: of a caller with the exit code, else when that has gone. */
static void carry(struct side *side)
{
	uint64_t signals;

	while (!side->is_over) {
		struct pollfd wait[5];
		bool can_read;

		if (side->serves && side->from[0] == NONE && side->from[1] == NONE && has_gone(side)) {
			if (!side->command) {
				side->is_over = true; /* the exit code has gone */
				break;
			}
			send_code(side);
		}
		if (get(side) | send_on(side))
			continue;
		if (side->is_over)
			break;
		if (side->body_len && side->body_to == NONE) {
			write_body(side);
			continue;
		}
		can_read = side->call.session.version && has_gone(side);
		wait[0] = (struct pollfd){side->own, POLLIN, 0}, wait[1] = (struct pollfd){side->socket, POLLIN, 0};
		wait[2] = (struct pollfd){side->body_len ? side->body_to : NONE, POLLOUT, 0};
		for (int stream = 0; stream < 2; stream++)
			wait[3 + stream] = (struct pollfd){can_read ? side->from[stream] : NONE, POLLIN, 0};
		if (poll(wait, 5, -1) < 0)
			err(1, "poll");
		if (wait[0].revents && read(side->own, &signals, sizeof signals) < 0)
			err(1, "eventfd");
		if (wait[1].revents) {
			/* The other process is gone: what it had sent is still read. */
			__atomic_store_n(side->serves ? &side->front->cli_live : &side->front->srv_live, 0, __ATOMIC_SEQ_CST);
			close(side->socket), side->socket = NONE;
		}
		if (wait[2].revents)
			write_body(side);
		for (int stream = 0; stream < 2; stream++)
			if (wait[3 + stream].revents && has_gone(side) && side->from[stream] != NONE)
				read_from(side, stream);
	}
}

/* ---- the page and the sockets */

static char *map(int file, const struct vchan_places *places)
{
	char *memory = mmap(NULL, places->size, PROT_READ | PROT_WRITE, MAP_SHARED, file, 0);

	if (memory == MAP_FAILED)
		err(1, "mmap");
	return memory;
}

static void open_end(struct side *side, char *memory, const struct vchan_places *places)
{
	struct vchan_setup with = {
		.role = side->serves ? VCHAN_SERVER : VCHAN_CLIENT, .state = side->serves ? VCHAN_OPEN : VCHAN_FRESH,
		.front = (struct vchan_front *)memory, .left = memory + places->left, .right = memory + places->right,
		.left_order = LEFT_ORDER, .right_order = RIGHT_ORDER, .notify = notify, .context = side,
	};

	side->front = with.front;
	if (vchan_page_open(&side->end, &with) || (!side->serves && vchan_page_connect(&side->end)) ||
	    qrexec_call_open(&side->call, &side->end, side->serves ? QREXEC_SERVING : QREXEC_CALLER, VERSION))
		err(1, "the page");
}

/* Three fds go with a byte: the page, the eventfd of the one that gets them, and that of the one that sends. */
static bool pass(int socket, int fd[3], bool sends)
{
	union { struct cmsghdr head; char room[CMSG_SPACE(3 * sizeof(int))]; } with = {0};
	char byte = 0;
	struct iovec part = {&byte, 1};
	struct msghdr message = {.msg_iov = &part, .msg_iovlen = 1, .msg_control = &with, .msg_controllen = sizeof with};

	if (sends) {
		with.head = (struct cmsghdr){.cmsg_len = CMSG_LEN(3 * sizeof(int)), .cmsg_level = SOL_SOCKET, .cmsg_type = SCM_RIGHTS};
		memcpy(CMSG_DATA(&with.head), fd, 3 * sizeof(int));
		return sendmsg(socket, &message, MSG_NOSIGNAL) == 1;
	}
	if (recvmsg(socket, &message, MSG_CMSG_CLOEXEC) != 1 || with.head.cmsg_len != CMSG_LEN(3 * sizeof(int)))
		return false;
	memcpy(fd, CMSG_DATA(&with.head), 3 * sizeof(int));
	return true;
}

static void run(struct side *side, char **command)
{
	posix_spawn_file_actions_t actions;
	int pipes[3][2];

	posix_spawn_file_actions_init(&actions);
	for (int i = 0; i < 3; i++) {
		if (pipe2(pipes[i], O_CLOEXEC))
			err(1, "pipe");
		posix_spawn_file_actions_adddup2(&actions, pipes[i][i != 0], i);
	}
	if ((errno = posix_spawnp(&side->command, command[0], &actions, NULL, command, environ)))
		err(1, "%s", command[0]);
	posix_spawn_file_actions_destroy(&actions);
	for (int i = 0; i < 3; i++)
		close(pipes[i][i != 0]);
	side->to[0] = pipes[0][1], side->from[0] = pipes[1][0], side->from[1] = pipes[2][0];
}

static void close_all(const int *fd, size_t count)
{
	for (size_t i = 0; i < count; i++)
		if (fd[i] != NONE)
			close(fd[i]);
}

static void serve(int at, char **command)
{
	static struct side side;
	struct vchan_places places;
	int fd[3] = {memfd_create("page", MFD_CLOEXEC | MFD_ALLOW_SEALING), eventfd(0, EFD_CLOEXEC), eventfd(0, EFD_CLOEXEC)};
	char *memory;

	memset(&side, 0, sizeof side);
	side.serves = true, side.to[1] = NONE, side.own = fd[2], side.peer = fd[1];
	vchan_page_places(LEFT_ORDER, RIGHT_ORDER, &places);
	/* A peer that makes the page shorter would end this process. */
	if (fd[0] < 0 || ftruncate(fd[0], (off_t)places.size) || fcntl(fd[0], F_ADD_SEALS, F_SEAL_SHRINK | F_SEAL_GROW | F_SEAL_SEAL))
		err(1, "a page");
	memory = map(fd[0], &places);
	vchan_page_lay((struct vchan_front *)memory, LEFT_ORDER, RIGHT_ORDER);
	side.socket = accept4(at, NULL, NULL, SOCK_CLOEXEC);
	open_end(&side, memory, &places);
	run(&side, command);
	if (pass(side.socket, fd, true))
		carry(&side);
	vchan_page_close(&side.end);
	if (side.command)
		kill(side.command, SIGKILL), waitpid(side.command, NULL, 0);
	close_all(fd, 3), close_all(side.from, 2), close_all(side.to, 2), close_all(&side.socket, 1);
	munmap(memory, places.size);
}

static int call(int at)
{
	static struct side side = {.from = {0, NONE}, .to = {1, 2}};
	struct vchan_places places;
	int fd[3];

	if (!pass(at, fd, false))
		errx(255, "the other side is gone");
	side.socket = at, side.own = fd[1], side.peer = fd[2];
	vchan_page_places(LEFT_ORDER, RIGHT_ORDER, &places);
	open_end(&side, map(fd[0], &places), &places);
	carry(&side);
	vchan_page_close(&side.end);
	return side.code & 0xff;
}

int main(int words, char **word)
{
	struct sockaddr_un name = {.sun_family = AF_UNIX, .sun_path = "qrexec-call.socket"};
	int at = socket(AF_UNIX, SOCK_STREAM | SOCK_CLOEXEC, 0);

	signal(SIGPIPE, SIG_IGN);
	if (words > 2 && !strcmp(word[1], "--at")) {
		snprintf(name.sun_path, sizeof name.sun_path, "%s", word[2]);
		word += 2, words -= 2;
	}
	if (words == 3 && !strcmp(word[1], "--record")) {
		record = open(word[2], O_WRONLY | O_CREAT | O_TRUNC | O_CLOEXEC, 0666);
		if (record < 0)
			err(1, "%s", word[2]);
		words = 1;
	}
	if (words == 1) {
		if (connect(at, (struct sockaddr *)&name, sizeof name))
			err(255, "%s", name.sun_path);
		return call(at);
	}
	if (words < 3 || strcmp(word[1], "--serve"))
		errx(2, "usage: qrexec-call [--at SOCKET] [--serve COMMAND [WORD..] | --record FILE]");
	unlink(name.sun_path);
	if (bind(at, (struct sockaddr *)&name, sizeof name) || listen(at, 8))
		err(1, "%s", name.sun_path);
	for (;;)
		serve(at, word + 2);
}
