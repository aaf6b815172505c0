/* Fault injection: a preloaded library that makes one of a program's calls fail.
 *
 * REFUSE       the kind of call: memory, read, write, receive, send or wait (for ready sockets); on a regular file that
 *              isn't a standard stream, append (a write), sync or cut; link, rename or create (a file); or file, which is
 *              each of append, sync, cut, link, rename and create
 * REFUSE_AT    which call of that kind fails, counted from 1; 0 or absent: none
 * REFUSE_THEN  a kind of which each call fails once that call has failed
 * REFUSE_TOLD  a file that is created when that call fails
 * REFUSE_KILLS if set, that call kills the program instead
 * REFUSE_PIECE the maximum number of bytes in a read or a write of a regular file, or of standard input or output; 0 or
 *              absent: no limit
 * REFUSE_WRITES the maximum number of bytes in a write to a regular file; 0 or absent: no limit
 *
 * An allocation fails with ENOMEM, and any other call with EIO. */
#define _GNU_SOURCE
#include <dlfcn.h>
#include <errno.h>
#include <fcntl.h>
#include <signal.h>
#include <stdarg.h>
#include <stdlib.h>
#include <string.h>
#include <sys/epoll.h>
#include <sys/socket.h>
#include <sys/stat.h>
#include <sys/syscall.h>
#include <sys/uio.h>
#include <unistd.h>

extern void *__libc_malloc(size_t);
extern void *__libc_calloc(size_t, size_t);
extern void *__libc_realloc(void *, size_t);
extern void *__libc_memalign(size_t, size_t);

static const char *kind;
static const char *then;
static const char *told;
static unsigned long at;
static size_t piece;
static size_t writes;
static unsigned long calls;

static unsigned long number(const char *name)
{
    const char *text = getenv(name);
    return text ? strtoul(text, 0, 10) : 0;
}

__attribute__((constructor)) static void start(void)
{
    at = number("REFUSE_AT");
    piece = number("REFUSE_PIECE");
    writes = number("REFUSE_WRITES");
    told = getenv("REFUSE_TOLD");
    kind = getenv("REFUSE");
    then = getenv("REFUSE_THEN");
}

/* Whether this call of a kind fails. */
static int is_refused(const char *of)
{
    if (then && at && calls >= at && strcmp(then, of) == 0)
        return 1;
    if (!kind || strcmp(kind, of) != 0 || ++calls != at)
        return 0;
    if (told)
        syscall(SYS_close, syscall(SYS_openat, AT_FDCWD, told, O_CREAT | O_WRONLY, 0600));
    return 1;
}

static int is_memory_refused(void)
{
    if (!is_refused("memory"))
        return 0;
    errno = ENOMEM;
    return 1;
}

static int is_call_refused(const char *of)
{
    if (!is_refused(of))
        return 0;
    if (getenv("REFUSE_KILLS"))
        kill(getpid(), SIGKILL);
    errno = EIO;
    return 1;
}

/* The same for a call that changes a file or a folder, so that it is of the kind `file`, too. */
static int is_change_refused(const char *of)
{
    return is_call_refused(kind && strcmp(kind, "file") == 0 ? "file" : of);
}

void *malloc(size_t n) { return is_memory_refused() ? 0 : __libc_malloc(n); }

void *calloc(size_t n, size_t size) { return is_memory_refused() ? 0 : __libc_calloc(n, size); }

void *realloc(void *p, size_t n) { return is_memory_refused() ? 0 : __libc_realloc(p, n); }

void *aligned_alloc(size_t a, size_t n) { return is_memory_refused() ? 0 : __libc_memalign(a, n); }

int posix_memalign(void **p, size_t a, size_t n)
{
    if (is_memory_refused())
        return ENOMEM;
    *p = __libc_memalign(a, n);
    return *p ? 0 : ENOMEM;
}

/* The function of this name in the next library. */
#define NEXT(name) __typeof__(name) *next = (__typeof__(name) *)dlsym(RTLD_NEXT, #name)

/* Whether this is a regular file, and not a standard stream. */
static int is_file(int fd)
{
    struct stat stat;
    return fd > 2 && fstat(fd, &stat) == 0 && S_ISREG(stat.st_mode);
}

static size_t in_piece(int fd, size_t n) { return piece && (fd <= 1 || is_file(fd)) && n > piece ? piece : n; }

static size_t to_write(int fd, size_t n)
{
    n = in_piece(fd, n);
    return writes && is_file(fd) && n > writes ? writes : n;
}

ssize_t read(int fd, void *bytes, size_t n)
{
    NEXT(read);
    return is_call_refused("read") ? -1 : next(fd, bytes, in_piece(fd, n));
}

ssize_t write(int fd, const void *bytes, size_t n)
{
    NEXT(write);
    return (is_file(fd) ? is_change_refused("append") : is_call_refused("write")) ? -1 : next(fd, bytes, to_write(fd, n));
}

int fsync(int fd)
{
    NEXT(fsync);
    return is_change_refused("sync") ? -1 : next(fd);
}

int fdatasync(int fd)
{
    NEXT(fdatasync);
    return is_change_refused("sync") ? -1 : next(fd);
}

int ftruncate(int fd, off_t length)
{
    NEXT(ftruncate);
    return is_change_refused("cut") ? -1 : next(fd, length);
}

int link(const char *from, const char *to)
{
    NEXT(link);
    return is_change_refused("link") ? -1 : next(from, to);
}

int rename(const char *from, const char *to)
{
    NEXT(rename);
    return is_change_refused("rename") ? -1 : next(from, to);
}

int open(const char *path, int flags, ...)
{
    NEXT(open);
    va_list more;
    va_start(more, flags);
    mode_t mode = flags & O_CREAT ? va_arg(more, mode_t) : 0;
    va_end(more);
    return flags & O_CREAT && is_change_refused("create") ? -1 : next(path, flags, mode);
}

ssize_t recvfrom(int fd, void *bytes, size_t n, int flags, struct sockaddr *from, socklen_t *length)
{
    NEXT(recvfrom);
    return is_call_refused("receive") ? -1 : next(fd, bytes, n, flags, from, length);
}

ssize_t recvmsg(int fd, struct msghdr *message, int flags)
{
    NEXT(recvmsg);
    return is_call_refused("receive") ? -1 : next(fd, message, flags);
}

ssize_t sendto(int fd, const void *bytes, size_t n, int flags, const struct sockaddr *to, socklen_t length)
{
    NEXT(sendto);
    return is_call_refused("send") ? -1 : next(fd, bytes, n, flags, to, length);
}

ssize_t sendmsg(int fd, const struct msghdr *message, int flags)
{
    NEXT(sendmsg);
    return is_call_refused("send") ? -1 : next(fd, message, flags);
}

int epoll_wait(int fd, struct epoll_event *events, int most, int timeout)
{
    NEXT(epoll_wait);
    return is_call_refused("wait") ? -1 : next(fd, events, most, timeout);
}
