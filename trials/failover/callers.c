/* Callers who follow a controller: each listens on its own port, sends a 20 ms packet every 20 ms to the address that
   the controller's lines name, and receives what is sent from there.
   usage: callers CALLERS FIRST_PORT [noise]
   Standard input has the controller's lines (demo/controller.escript). Other lines are `mark`, which starts a period;
   `report`, which reports on it; and `quit`. Members 1 and 2 of a conference speak, each at its own level, which
   differs between conferences; the others are silent. With `noise` all speak, and what is heard is not checked. */
#define _GNU_SOURCE
#include <arpa/inet.h>
#include <fcntl.h>
#include <stdint.h>
#include <stdio.h>
#include <stdlib.h>
#include <string.h>
#include <sys/epoll.h>
#include <sys/socket.h>
#include <time.h>
#include <unistd.h>

enum { MOST = 1024, CONFERENCES = 64, HEAD = 12, PACKET = 172, SILENCE = 0xff };

struct caller {
    int socket, said, expected, isolated, conference, member;
    struct sockaddr_in to;        /* where it sends to; port 0 until it is known */
    int came, sequence;           /* whether a packet arrived from there, and the number of the last one */
    double at;                    /* when that was */
    int moved;                    /* since the mark */
    double heard;                 /* after the mark: when the others' speech first arrived from its new address */
    long missing, leaked;         /* missing numbers; packets with speech to an isolated caller */
    double gap;                   /* the longest time between two packets, in seconds */
};

static struct caller callers[MOST];
static int count, first, noise, levels[CONFERENCES][3];
static double mark;

static double now(void)
{
    struct timespec t;
    clock_gettime(CLOCK_MONOTONIC, &t);
    return t.tv_sec + t.tv_nsec * 1e-9;
}

/* The magnitude of a mu-law code (G.711). Codes from 128 on are positive. */
static int level(int code)
{
    int bits = ~code & 0x7f;
    return (((bits & 15) * 2 + 33) << (bits >> 4)) - 33;
}

/* Finds pairs of codes whose sum is exactly a code: what members 1 and 2 of each conference say, and the sum. */
static void find_levels(void)
{
    int n = 0;
    for (int a = 128; a < SILENCE; a++)
        for (int b = a + 1; b < SILENCE; b++)
            for (int sum = 128; sum < SILENCE && n < CONFERENCES; sum++)
                if (level(a) + level(b) == level(sum))
                    levels[n][0] = a, levels[n][1] = b, levels[n++][2] = sum;
}

static void open_all(int poll)
{
    for (int i = 0; i < count; i++) {
        struct sockaddr_in own = {.sin_family = AF_INET, .sin_port = htons(first + 2 * i)};
        struct epoll_event event = {.events = EPOLLIN, .data.u32 = i};
        int room = 1 << 20, s = socket(AF_INET, SOCK_DGRAM | SOCK_NONBLOCK, 0);
        inet_pton(AF_INET, "127.0.0.1", &own.sin_addr);
        setsockopt(s, SOL_SOCKET, SO_RCVBUF, &room, sizeof room);
        if (bind(s, (struct sockaddr *)&own, sizeof own) < 0 || epoll_ctl(poll, EPOLL_CTL_ADD, s, &event) < 0) {
            perror("bind");
            exit(1);
        }
        callers[i].socket = s;
        callers[i].said = callers[i].expected = SILENCE;
    }
}

static void begin(void)
{
    mark = now();
    for (int i = 0; i < count; i++)
        callers[i].moved = 0, callers[i].heard = callers[i].gap = 0, callers[i].missing = callers[i].leaked = 0;
}

/* Reports on the callers that were moved since the mark, and on the others. */
static void report(void)
{
    int moved = 0, heard = 0, stayed = 0;
    long missing = 0, leaked = 0;
    double soonest = 1e9, latest = 0, gap = 0;
    for (struct caller *c = callers; c < callers + count; c++) {
        leaked += c->leaked;
        moved += c->moved;
        if (c->moved && c->heard) {
            heard++;
            soonest = c->heard - mark < soonest ? c->heard - mark : soonest;
            latest = c->heard - mark > latest ? c->heard - mark : latest;
        } else if (!c->moved && c->came) {
            stayed++;
            missing += c->missing;
            gap = c->gap > gap ? c->gap : gap;
        }
    }
    printf("moved %d heard %d soonest %.2f latest %.2f stayed %d missing %ld gap %.3f leaked %ld\n", moved, heard,
           heard ? soonest : 0, latest, stayed, missing, gap, leaked);
    fflush(stdout);
}

static void member(int conference, int number, int from, const char *host, int port)
{
    int i = (from - first) / 2, *level_of = levels[conference % CONFERENCES];
    if (i < 0 || i >= count)
        return;
    struct caller *c = &callers[i];
    c->conference = conference, c->member = number;
    c->said = number <= 2 ? level_of[number - 1] : SILENCE;
    c->expected = c->isolated ? SILENCE : level_of[number == 1 ? 1 : number == 2 ? 0 : 2];
    c->moved = c->to.sin_port != 0, c->came = 0, c->heard = 0;
    c->to.sin_family = AF_INET;
    c->to.sin_port = htons(port);
    inet_pton(AF_INET, host, &c->to.sin_addr);
}

/* Handles a line of standard input; returns whether it was `quit`. */
static int line(const char *text)
{
    int conference, number, from, port;
    char host[16];
    if (sscanf(text, "member %d %d %*[^:]:%d at %15[^:]:%d", &conference, &number, &from, host, &port) == 5)
        member(conference, number, from, host, port);
    if (sscanf(text, "conference %d isolate %d all: o%c", &conference, &number, host) == 3)
        for (struct caller *c = callers; c < callers + count; c++)
            if (c->conference == conference && c->member == number)
                c->isolated = 1, c->expected = SILENCE;
    if (strcmp(text, "mark") == 0)
        begin();
    if (strcmp(text, "report") == 0)
        report();
    return strcmp(text, "quit") == 0;
}

/* Handles the lines that are waiting; returns whether to end. */
static int lines(void)
{
    static char text[1 << 16];
    static size_t length;
    ssize_t n = read(0, text + length, sizeof text - 1 - length);
    if (n <= 0)
        return n == 0;
    length += n;
    text[length] = 0;
    char *from = text, *end;
    for (; (end = strchr(from, '\n')); from = end + 1) {
        *end = 0;
        if (line(from))
            return 1;
    }
    length -= from - text;
    memmove(text, from, length);
    return 0;
}

static void say(int number)
{
    static uint8_t packet[PACKET] = {0x80};
    for (int i = 0; i < count; i++) {
        struct caller *c = &callers[i];
        if (!c->to.sin_port)
            continue;
        uint32_t stamp = htonl((uint32_t)number * 160), source = htonl(1000 + i);
        packet[2] = number >> 8, packet[3] = number;
        memcpy(packet + 4, &stamp, 4);
        memcpy(packet + 8, &source, 4);
        memset(packet + HEAD, c->said, PACKET - HEAD);
        for (int k = HEAD; noise && k < PACKET; k++)
            packet[k] = random();
        sendto(c->socket, packet, PACKET, 0, (struct sockaddr *)&c->to, sizeof c->to);
    }
}

static void hear(struct caller *c)
{
    uint8_t packet[2048];
    struct sockaddr_in from;
    socklen_t size = sizeof from;
    while (recvfrom(c->socket, packet, sizeof packet, 0, (struct sockaddr *)&from, &size) == PACKET) {
        if (from.sin_port != c->to.sin_port || from.sin_addr.s_addr != c->to.sin_addr.s_addr)
            continue;
        double at = now();
        int sequence = packet[2] << 8 | packet[3], all = 1;
        if (c->came) {
            c->missing += (uint16_t)(sequence - c->sequence - 1);
            c->gap = at - c->at > c->gap ? at - c->at : c->gap;
        }
        c->came = 1, c->sequence = sequence, c->at = at;
        for (int i = HEAD; i < PACKET; i++)
            all &= packet[i] == c->expected;
        c->leaked += c->isolated && !all;
        if (all && c->moved && !c->heard)
            c->heard = at;
    }
}

int main(int argc, char **argv)
{
    if (argc < 3 || (count = atoi(argv[1])) > MOST)
        return 2;
    first = atoi(argv[2]);
    noise = argc > 3;
    find_levels();
    int poll = epoll_create1(0);
    open_all(poll);
    fcntl(0, F_SETFL, O_NONBLOCK);
    double start = now();
    for (int number = 0; !lines();) {
        struct epoll_event events[MOST];
        int n = epoll_wait(poll, events, MOST, 1);
        for (int i = 0; i < n; i++)
            hear(&callers[events[i].data.u32]);
        for (; start + number * 0.02 <= now(); number++)
            say(number);
    }
    return 0;
}
