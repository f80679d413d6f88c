/*
 * Sends a file both ways between two processes, over a page in a memfd, with an eventfd each to be signalled by:
 *
 *     cc -o two-processes two-processes.c $(pkg-config --cflags --libs vchan)
 *     ./two-processes [--strict] [--kill] FILE
 *
 * The processes are children of this one, which stands for Xen: where one of them dies, it clears that one's live byte
 * and signals the other. With --strict each child can only read and write its eventfds, wait on a futex and exit. With
 * --kill the client is killed when it has sent half of the file; the server then ends with what it got.
 */
#define _GNU_SOURCE
#include <vchan_page.h>
#include <err.h>
#include <errno.h>
#include <fcntl.h>
#include <linux/filter.h>
#include <linux/seccomp.h>
#include <signal.h>
#include <stdio.h>
#include <stdlib.h>
#include <string.h>
#include <sys/eventfd.h>
#include <sys/mman.h>
#include <sys/prctl.h>
#include <sys/stat.h>
#include <sys/syscall.h>
#include <sys/wait.h>
#include <unistd.h>

enum { LEFT_ORDER = 12, RIGHT_ORDER = 11 };

/* An end's eventfd, and its peer's. */
struct events {
	int own, peer;
};

static bool notify(void *context)
{
	uint64_t one = 1;

	return write(((struct events *)context)->peer, &one, sizeof one) == sizeof one;
}

static bool wait_for_event(void *context)
{
	uint64_t count;

	return read(((struct events *)context)->own, &count, sizeof count) == sizeof count;
}

/* Sends all bytes, and gets as many of the peer. Returns how many it got: fewer, if the peer goes away. Both calls ask
 * for a signal before they answer that nothing can be moved, so the wait behind them misses none. */
static size_t exchange(struct vchan_page *end, const char *bytes, size_t size, char *into, size_t dies_at)
{
	size_t sent = 0, got = 0;

	while (got < size || sent < size) {
		int wrote = sent < size ? vchan_page_write(end, bytes + sent, size - sent) : 0;
		int read = got < size ? vchan_page_drain(end, into + got, size - got) : 0;

		if (read < 0 && errno == EPIPE)
			return got; /* the peer is gone, and all that it sent was read */
		if (read < 0 || (wrote < 0 && errno != EPIPE))
			_exit(1);
		got += (size_t)read;
		sent = wrote < 0 ? size : sent + (size_t)wrote; /* nobody is there to send to */
		if (sent >= dies_at)
			raise(SIGKILL);
		if (!wrote && !read && vchan_page_wait(end))
			_exit(1);
	}
	return got;
}

#define ALLOW BPF_STMT(BPF_RET | BPF_K, SECCOMP_RET_ALLOW)
#define LOAD(field) BPF_STMT(BPF_LD | BPF_W | BPF_ABS, offsetof(struct seccomp_data, field))
#define UNLESS(value, skipped) BPF_JUMP(BPF_JMP | BPF_JEQ | BPF_K, (value), 0, (skipped))

/* From here on any other call kills this process. */
static void be_strict(const struct events *events)
{
	struct sock_filter rules[] = {
		LOAD(nr), UNLESS(SYS_futex, 1), ALLOW, UNLESS(SYS_exit, 1), ALLOW, UNLESS(SYS_exit_group, 1), ALLOW,
		UNLESS(SYS_read, 3), LOAD(args[0]), UNLESS((uint32_t)events->own, 1), ALLOW,
		LOAD(nr), UNLESS(SYS_write, 3), LOAD(args[0]), UNLESS((uint32_t)events->peer, 1), ALLOW,
		BPF_STMT(BPF_RET | BPF_K, SECCOMP_RET_KILL_PROCESS),
	};
	struct sock_fprog program = { sizeof rules / sizeof *rules, rules };

	if (prctl(PR_SET_NO_NEW_PRIVS, 1, 0, 0, 0) || prctl(PR_SET_SECCOMP, SECCOMP_MODE_FILTER, &program))
		err(1, "seccomp");
}

static char *map(int file, size_t size)
{
	char *start = mmap(NULL, size ? size : 1, PROT_READ | PROT_WRITE, MAP_SHARED | (file < 0 ? MAP_ANONYMOUS : 0), file, 0);

	if (start == MAP_FAILED)
		err(1, "mmap");
	return start;
}

int main(int words, char **word)
{
	bool is_strict = false, kills = false;
	struct vchan_places places;
	struct stat status;
	int page = memfd_create("page", MFD_ALLOW_SEALING), file, fd[2] = { eventfd(0, 0), eventfd(0, 0) }, ended;
	char *bytes, *got[2], *memory;
	size_t *count;
	pid_t child[2], gone;

	for (; words > 2; words--, word++)
		strcmp(word[1], "--strict") ? (kills = true) : (is_strict = true);
	file = words == 2 ? open(word[1], O_RDONLY) : -1;
	if (file < 0 || fstat(file, &status))
		err(2, "usage: two-processes [--strict] [--kill] FILE");
	bytes = mmap(NULL, (size_t)status.st_size + 1, PROT_READ, MAP_PRIVATE | MAP_POPULATE, file, 0);
	vchan_page_places(LEFT_ORDER, RIGHT_ORDER, &places);
	if (bytes == MAP_FAILED || page < 0 || ftruncate(page, (off_t)places.size) || fcntl(page, F_ADD_SEALS, F_SEAL_SHRINK | F_SEAL_SEAL))
		err(1, "a page for %s", word[1]); /* sealed, since who touches a page that was cut off is killed */
	memory = map(page, places.size);
	vchan_page_lay((struct vchan_front *)memory, LEFT_ORDER, RIGHT_ORDER);
	count = (size_t *)map(-1, 2 * sizeof *count);
	for (int who = 0; who < 2; who++)
		got[who] = map(-1, (size_t)status.st_size);
	for (int who = 0; who < 2; who++) {
		if ((child[who] = fork()) == 0) {
			struct events events = { fd[who], fd[!who] };
			struct vchan_page end;
			struct vchan_setup with = {
				.role = who ? VCHAN_CLIENT : VCHAN_SERVER, .state = who ? VCHAN_FRESH : VCHAN_OPEN,
				.front = (struct vchan_front *)memory, .left = memory + places.left, .right = memory + places.right,
				.left_order = LEFT_ORDER, .right_order = RIGHT_ORDER,
				.notify = notify, .wait_for_event = wait_for_event, .context = &events,
			};

			if (is_strict)
				be_strict(&events);
			if (vchan_page_open(&end, &with) || (who && vchan_page_connect(&end)))
				_exit(1);
			count[who] = exchange(&end, bytes, (size_t)status.st_size, got[who], who && kills ? (size_t)status.st_size / 2 : SIZE_MAX);
			_exit(vchan_page_close(&end) != 0);
		}
	}
	while ((gone = wait(&ended)) > 0) {
		struct vchan_front *front = (struct vchan_front *)memory;
		bool is_client = gone == child[1];
		uint64_t one = 1;

		__atomic_store_n(is_client ? &front->cli_live : &front->srv_live, 0, __ATOMIC_SEQ_CST);
		if (write(fd[!is_client], &one, sizeof one) != sizeof one)
			err(1, "eventfd");
		printf("the %s %s: got %zu of %zu bytes, %s\n", is_client ? "client" : "server", WIFSIGNALED(ended) ? "was killed" : "ended",
		       count[is_client], (size_t)status.st_size, memcmp(bytes, got[is_client], count[is_client]) ? "others" : "as they were sent");
		fflush(stdout);
	}
	return 0;
}
