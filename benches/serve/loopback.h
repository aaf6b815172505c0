/* Sockets on 127.0.0.1 and the clock, for programs that call a gateway. */
#include <arpa/inet.h>
#include <stdio.h>
#include <stdlib.h>
#include <string.h>
#include <sys/socket.h>
#include <time.h>

static inline struct sockaddr_in local(int port)
{
    struct sockaddr_in a = {.sin_family = AF_INET, .sin_port = htons(port)};
    a.sin_addr.s_addr = htonl(INADDR_LOOPBACK);
    return a;
}

/* A socket bound to a port, with a buffer of `room` bytes, or of the usual size if `room` is 0. */
static inline int bound(int port, int flags, int room)
{
    struct sockaddr_in a = local(port);
    int s = socket(AF_INET, SOCK_DGRAM | flags, 0);
    if (s < 0 || bind(s, (struct sockaddr *)&a, sizeof a) < 0) {
        perror("bind");
        exit(1);
    }
    if (room)
        setsockopt(s, SOL_SOCKET, SO_RCVBUF, &room, sizeof room);
    return s;
}

static inline ssize_t send_to(int s, int port, const void *bytes, size_t n)
{
    struct sockaddr_in to = local(port);
    return sendto(s, bytes, n, 0, (struct sockaddr *)&to, sizeof to);
}

static inline double now(void)
{
    struct timespec t;
    clock_gettime(CLOCK_MONOTONIC, &t);
    return t.tv_sec + t.tv_nsec * 1e-9;
}

/* The sum of a statistic over all terminations in an answer. */
static inline long sum_of(const char *answer, const char *name)
{
    long sum = 0;
    for (const char *at = answer; (at = strstr(at, name)); at++)
        sum += atol(at + strlen(name));
    return sum;
}
