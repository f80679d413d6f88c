/* Makes one call of the program fail, or all from that one on: an allocation, a read or a write.
 *
 * FAULT_KIND is alloc, read, write, short-read or short-write. FAULT_AT is the number of the call, from 1
 * on. With FAULT_ON all later calls fail too. A byte on descriptor FAULT_FD shows that the program made
 * that call. Short calls move one byte.
 */
#define _GNU_SOURCE
#include <dlfcn.h>
#include <errno.h>
#include <stdatomic.h>
#include <stdlib.h>
#include <string.h>
#include <sys/syscall.h>
#include <unistd.h>

static atomic_long calls;
static const char *kind = "";
static long at = -1;
static int on, told = -1;

__attribute__((constructor)) static void begin(void)
{
    const char *text = getenv("FAULT_KIND");
    if (text)
        kind = text;
    if (getenv("FAULT_AT"))
        at = atol(getenv("FAULT_AT"));
    if (getenv("FAULT_FD"))
        told = atoi(getenv("FAULT_FD"));
    on = getenv("FAULT_ON") != NULL;
}

static int falls_on(const char *name)
{
    if (at < 0 || strcmp(kind, name) != 0)
        return 0;
    long number = atomic_fetch_add(&calls, 1) + 1;
    if (number != at && !(on && number > at))
        return 0;
    if (number == at && told >= 0)
        syscall(SYS_write, told, "x", 1);
    return 1;
}

void *malloc(size_t size)
{
    static void *(*real)(size_t);
    if (!real)
        real = dlsym(RTLD_NEXT, "malloc");
    if (falls_on("alloc")) {
        errno = ENOMEM;
        return NULL;
    }
    return real(size);
}

void *realloc(void *block, size_t size)
{
    static void *(*real)(void *, size_t);
    if (!real)
        real = dlsym(RTLD_NEXT, "realloc");
    if (falls_on("alloc")) {
        errno = ENOMEM;
        return NULL;
    }
    return real(block, size);
}

ssize_t read(int fd, void *buf, size_t count)
{
    if (fd == 0 && falls_on("read")) {
        errno = EIO;
        return -1;
    }
    if (fd == 0 && count > 1 && falls_on("short-read"))
        count = 1;
    return syscall(SYS_read, fd, buf, count);
}

ssize_t write(int fd, const void *buf, size_t count)
{
    if (fd == 1 && falls_on("write")) {
        errno = EIO;
        return -1;
    }
    if (fd == 1 && count > 1 && falls_on("short-write"))
        count = 1;
    return syscall(SYS_write, fd, buf, count);
}
