/*
 * Tests c/libxenvchan_io.c over what stands in for the distribution's half of libxenvchan (xen/): what an unchanged
 * program sees that forks, sets server_persist late, is interrupted by a signal, or waits in two threads. `alarm`
 * ends it where a call waits for ever.
 */
#define _GNU_SOURCE
#include "../../c/vchan_end.h"
#include "xen/distribution.h"
#include <errno.h>
#include <pthread.h>
#include <signal.h>
#include <stdio.h>
#include <stdlib.h>
#include <string.h>
#include <sys/wait.h>
#include <unistd.h>

#define CHECK(it) \
	do { \
		if (!(it)) { \
			fflush(stdout); \
			fprintf(stderr, "io.c:%d: %s (errno %d)\n", __LINE__, #it, errno); \
			abort(); \
		} \
	} while (0)

#define REFUSES(call, why) CHECK((errno = 0, (call) == -1) && errno == (why))

static struct libxenvchan *server, *client;
static char data[1 << 16];

static struct vchan_front *front(void)
{
	return (struct vchan_front *)(void *)server->ring;
}

/* Two ends of a new page whose rings have 1,024 and 2,048 bytes. */
static void open_pair(bool waits)
{
	server = libxenvchan_server_init(NULL, 0, "", 1024, 2048);
	client = libxenvchan_client_init(NULL, 0, "");
	CHECK(server && client);
	server->blocking = client->blocking = waits ? -1 : 0;
	memset(data, 0, sizeof data);
}

static void close_pair(void)
{
	int before = closed;

	libxenvchan_close(client);
	libxenvchan_close(server);
	CHECK(closed == before + 2);
}

static void calls(void)
{
	open_pair(false);
	CHECK(libxenvchan_is_open(server) == 1 && libxenvchan_is_open(client) == 1);
	CHECK(libxenvchan_write(client, "hello", 5) == 5 && libxenvchan_data_ready(server) == 5 && libxenvchan_recv(server, data, 6) == 0);
	CHECK(libxenvchan_read(server, data, 64) == 5 && !memcmp(data, "hello", 5) && libxenvchan_read(server, data, 64) == 0);
	CHECK(libxenvchan_send(server, data, 2000) == 2000 && libxenvchan_send(server, data, 49) == 0 && libxenvchan_buffer_space(server) == 48);
	CHECK(libxenvchan_recv(client, data, 2000) == 2000 && libxenvchan_buffer_space(client) == 1024);
	/* a size that an int doesn't hold is no small one */
	CHECK(libxenvchan_write(client, data, ((size_t)1 << 32) + 5) == 1024);
	close_pair();
}

/* The other end sees the close, once, by the byte and a signal, and has what was written before. */
static void closes(void)
{
	struct vchan_front *page;

	open_pair(false);
	page = front();
	CHECK(libxenvchan_write(client, "left", 4) == 4);
	while (is_signalled(server))
		CHECK(libxenvchan_wait(server) == 0);
	libxenvchan_close(client);
	CHECK(page->cli_live == 0 && is_signalled(server) && libxenvchan_is_open(server) == 0);
	CHECK(libxenvchan_read(server, data, 64) == 4 && libxenvchan_read(server, data, 64) == -1 && libxenvchan_write(server, "x", 1) == -1);
	libxenvchan_close(server);
	CHECK(page->srv_live == 0);
}

/* A closed end is forgotten: another one at its address begins with the counts of its own page, each of its ring. */
static void adoption(void)
{
	struct libxenvchan *made;

	for (int round = 0; round < 2; round++) {
		open_pair(false);
		made = malloc(sizeof *made);
		*made = *client;
		/* an end that none of the init functions made */
		front()->left_cons = front()->left_prod = 700, front()->right_prod = 3000 + (uint32_t)round, front()->right_cons = 2990;
		CHECK(libxenvchan_data_ready(made) == 10 + round && libxenvchan_buffer_space(made) == 1024);
		CHECK(libxenvchan_write(made, "ab", 2) == 2 && front()->left_prod == 702);
		CHECK(libxenvchan_read(made, data, 4) == 4 && front()->right_cons == 2994);
		/* what the peer stores in its counts is nothing to it */
		front()->left_prod = 1, front()->right_cons = 5;
		CHECK(libxenvchan_write(made, "c", 1) == 1 && front()->left_prod == 703);
		CHECK(libxenvchan_read(made, data, 1) == 1 && front()->right_cons == 2995);
		server = made; /* at the same address again, on another page */
		libxenvchan_close(made);
		*made = *client;
		front()->left_prod = front()->left_cons = 40, front()->right_prod = front()->right_cons = 50;
		front()->cli_live = 1;
		CHECK(libxenvchan_write(made, "d", 1) == 1 && front()->left_prod == 41 && libxenvchan_data_ready(made) == 0);
		libxenvchan_close(made);
		free(made);
	}
}

static void in_child(void (*act)(void))
{
	pid_t child;
	int status;

	fflush(stdout);
	child = fork();
	CHECK(child >= 0);
	if (!child) {
		alarm(20);
		act();
		_exit(0);
	}
	CHECK(waitpid(child, &status, 0) == child && WIFEXITED(status) && WEXITSTATUS(status) == 0);
}

static void write_b(void) { CHECK(libxenvchan_write(client, "BBBBB", 5) == 5); }
static void read_five(void) { CHECK(libxenvchan_read(client, data, 5) == 5 && !memcmp(data, "fghij", 5)); }
static void close_it(void) { libxenvchan_close(client); }

/* One pair of counts, whichever process uses the end, and however often it is used before the fork. */
static void forks(void)
{
	for (int used = 0; used < 2; used++) {
		open_pair(false);
		if (used)
			CHECK(libxenvchan_write(client, "AAAAA", 5) == 5);
		in_child(write_b);
		CHECK(libxenvchan_write(client, "CC", 2) == 2);
		CHECK(libxenvchan_read(server, data, 64) == (used ? 12 : 7) && !memcmp(data, &"AAAAABBBBBCC"[used ? 0 : 5], used ? 12 : 7));
		CHECK(libxenvchan_write(server, "abcdefghijklm", 13) == 13);
		CHECK(libxenvchan_read(client, data, 5) == 5 && !memcmp(data, "abcde", 5));
		in_child(read_five);
		CHECK(libxenvchan_read(client, data, 64) == 3 && !memcmp(data, "klm", 3));
		in_child(close_it);
		REFUSES(libxenvchan_write(client, "x", 1), ENOTCONN);
		close_pair();
	}
}

static void die(void)
{
	kill(getpid(), SIGKILL);
}

static void *kill_soon(void *child)
{
	usleep(100000);
	kill(*(pid_t *)child, SIGKILL);
	return NULL;
}

/* A process that dies inside a call, or while it waits, doesn't keep the others from the end. */
static void deaths(void)
{
	pthread_t killer;
	pid_t child;
	int status;

	open_pair(true);
	if (!(child = fork())) {
		at_notify = die;
		libxenvchan_write(client, "abc", 3);
		_exit(0);
	}
	CHECK(waitpid(child, &status, 0) == child && WIFSIGNALED(status));
	CHECK(libxenvchan_write(client, "de", 2) == 2 && libxenvchan_read(server, data, 64) == 5 && !memcmp(data, "abcde", 5));
	while (is_signalled(client))
		CHECK(libxenvchan_wait(client) == 0);
	if (!(child = fork())) {
		libxenvchan_read(client, data, 1);
		_exit(0);
	}
	CHECK(!pthread_create(&killer, NULL, kill_soon, &child));
	CHECK(waitpid(child, &status, 0) == child && WIFSIGNALED(status) && !pthread_join(killer, NULL));
	CHECK(libxenvchan_write(server, "f", 1) == 1 && libxenvchan_read(client, data, 64) == 1);
	close_pair();
}

/* server_persist is read at each call. */
static void persists(void)
{
	open_pair(false);
	CHECK(libxenvchan_write(server, "a", 1) == 1);
	libxenvchan_close(client);
	CHECK(libxenvchan_is_open(server) == 0 && libxenvchan_write(server, "b", 1) == -1);
	server->server_persist = -1;
	CHECK(libxenvchan_is_open(server) == 1 && libxenvchan_write(server, "c", 1) == 1);
	server->server_persist = 0;
	CHECK(libxenvchan_is_open(server) == 0 && libxenvchan_write(server, "d", 1) == -1);
	libxenvchan_close(server);
	/* for no peer is another live byte than 0, 1 and 2 handed out */
	open_pair(false);
	front()->srv_live = 77, front()->cli_live = 2;
	CHECK(libxenvchan_is_open(client) == 1 && libxenvchan_is_open(server) == 2);
	close_pair();
}

static volatile int in_handler, why_in_handler;

static void handler(int signal)
{
	(void)signal;
	errno = 0;
	in_handler = libxenvchan_write(client, "z", 1);
	why_in_handler = errno;
}

static void interrupt(void)
{
	raise(SIGUSR1);
}

/* A handler that interrupts a call of its own thread on the same end gets an error, and the call goes on. */
static void interrupted(void)
{
	open_pair(false);
	signal(SIGUSR1, handler);
	at_notify = interrupt;
	CHECK(libxenvchan_write(client, "abc", 3) == 3 && in_handler == -1 && why_in_handler == EDEADLK);
	at_notify = NULL;
	raise(SIGUSR1);
	CHECK(in_handler == 1 && libxenvchan_read(server, data, 64) == 4 && !memcmp(data, "abcz", 4));
	close_pair();
}

static void *read_one(void *got)
{
	*(int *)got = libxenvchan_read(client, data, 1);
	return NULL;
}

static void *write_many(void *got)
{
	*(int *)got = libxenvchan_write(client, data, 3000);
	return NULL;
}

/* A thread that reads and one that writes wait on one end: each goes on, whichever began to wait first. */
static void wait_both(void)
{
	for (int round = 0; round < 20; round++) {
		int first = round % 2, read = 0, wrote = 0, taken = 0, count;
		pthread_t one, two;

		open_pair(true);
		CHECK(!pthread_create(&one, NULL, first ? write_many : read_one, first ? &wrote : &read));
		usleep(20000);
		CHECK(!pthread_create(&two, NULL, first ? read_one : write_many, first ? &read : &wrote));
		usleep(20000);
		while (taken < 3000) {
			CHECK((count = libxenvchan_read(server, data, sizeof data)) > 0);
			taken += count;
		}
		CHECK(!pthread_join(first ? one : two, NULL) && wrote == 3000 && read == 0);
		CHECK(libxenvchan_write(server, "r", 1) == 1);
		CHECK(!pthread_join(first ? two : one, NULL) && read == 1);
		close_pair();
	}
}

#define TIMES 20000

static void *write_each(void *byte)
{
	for (int i = 0; i < TIMES; i++)
		CHECK(libxenvchan_write(client, byte, 1) == 1);
	return NULL;
}

/* Two threads that write on one end: no byte is lost. */
static void two_writers(void)
{
	char bytes[2] = { 'a', 'b' };
	int counts[2] = { 0, 0 }, count;
	pthread_t one, two;

	open_pair(true);
	CHECK(!pthread_create(&one, NULL, write_each, &bytes[0]) && !pthread_create(&two, NULL, write_each, &bytes[1]));
	for (int taken = 0; taken < 2 * TIMES; taken += count) {
		CHECK((count = libxenvchan_read(server, data, sizeof data)) > 0);
		for (int i = 0; i < count; i++) {
			CHECK(data[i] == 'a' || data[i] == 'b');
			counts[data[i] - 'a']++;
		}
	}
	CHECK(!pthread_join(one, NULL) && !pthread_join(two, NULL) && counts[0] == TIMES && counts[1] == TIMES);
	close_pair();
}

static void *write_soon(void *what)
{
	usleep(100000);
	CHECK(libxenvchan_write(server, what, 1) == 1);
	return NULL;
}

/* What waits, what doesn't, and what a wait or a notify that fails comes to. */
static void waits(void)
{
	pthread_t thread;

	open_pair(true);
	CHECK(!pthread_create(&thread, NULL, write_soon, "w"));
	CHECK(libxenvchan_read(client, data, 0) == 0 && libxenvchan_data_ready(client) == 1); /* none is read, but one came */
	CHECK(!pthread_join(thread, NULL) && libxenvchan_read(client, data, 64) == 1);
	CHECK(!pthread_create(&thread, NULL, write_soon, "v"));
	CHECK(libxenvchan_recv(client, data, 1) == 1 && data[0] == 'v' && !pthread_join(thread, NULL));
	REFUSES(libxenvchan_send(client, data, 1025), EMSGSIZE);
	REFUSES(libxenvchan_recv(client, data, 2049), EMSGSIZE);
	CHECK(libxenvchan_send(server, data, 2048) == 2048 && libxenvchan_recv(client, data, 2048) == 2048);
	wait_fails = true;
	REFUSES(libxenvchan_wait(client), EIO);
	REFUSES(libxenvchan_read(client, data, 1), EIO);
	wait_fails = false;
	client->blocking = server->blocking = 0;
	CHECK(libxenvchan_read(client, data, 1) == 0 && libxenvchan_write(client, data, 2000) == 1024);
	CHECK(libxenvchan_read(server, data, 1024) == 1024 && libxenvchan_wait(client) == 0);
	CHECK(libxenvchan_read(server, data, 1) == 0);
	notify_fails = true;
	REFUSES(libxenvchan_write(client, "n", 1), EIO);
	notify_fails = false;
	CHECK(libxenvchan_read(server, data, 1) == 1 && data[0] == 'n');
	close_pair();
}

int main(void)
{
	alarm(100);
	calls();
	closes();
	adoption();
	forks();
	deaths();
	persists();
	interrupted();
	waits();
	wait_both();
	two_writers();
	puts("calls, closes, forks, deaths, persistence, signals and waits of an unchanged program");
	return 0;
}
