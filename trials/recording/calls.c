/* Callers in conferences on a gateway, each of whom sends a 20 ms packet every 20 ms, and a controller that makes up to
   ten changes a second. Writes counts and hashes of what they sent and of what they received to two files (streams.h),
   and prints how much that was.
   usage: calls CALLERS SECONDS SENT CAME
   The choices are pseudo-random, but the same in each run. */
#define _GNU_SOURCE
#include "../../benches/serve/loopback.h"
#include "streams.h"
#include <errno.h>
#include <stdarg.h>
#include <sys/epoll.h>

enum { MOST = 256, A_CONFERENCE = 32, FULL = 64, PACKET = 172, ANSWER = 65536, BUFFER = 1 << 22, PATIENCE = 10 };

struct caller {
    int socket, payload_type;
    int conference, termination;  /* the latter is 0 if the caller has hung up */
    int port;                     /* the gateway's port that it sends to */
};

static struct stream to_gateway[STREAMS], from_gateway[STREAMS];
static struct caller callers[MOST];
static int count, conferences, contexts[MOST], members[MOST], control, poll;

/* The last request: its number, how many answers are still due, whether one has come, whom it adds, and when it was
   sent. */
static int transaction, awaited, is_told;
static struct caller *added;
static double asked;

/* Requests that were rejected, packets that callers sent and received, and those that the gateway says it sent. */
static long refused, sent, received, made;

static int chance(int n)
{
    return random() % n;
}

/* Sends a datagram; returns whether that succeeded. */
static int send_off(int s, int gateway, int other, const void *bytes, int n)
{
    take(to_gateway, gateway, other, bytes, n);
    if (send_to(s, gateway, bytes, n) == n)
        return 1;
    perror("send");
    return 0;
}

/* Sends a request about a context; sends one in eight twice, as if its answer had been lost. */
__attribute__((format(printf, 1, 2))) static void ask(const char *format, ...)
{
    static char text[8192];
    va_list words;
    int n = sprintf(text, "MEGACO/1 [127.0.0.1]:%d\nTransaction=%d{Context=", CONTROLLER, ++transaction);
    va_start(words, format);
    n += vsprintf(text + n, format, words);
    va_end(words);
    n += sprintf(text + n, "}");
    awaited = chance(8) ? 1 : 2, is_told = 0, asked = now();
    for (int i = 0; i < awaited; i++)
        send_off(control, CONTROL, CONTROLLER, text, n);
}

static void add(struct caller *c, int conference)
{
    char context[16] = "$";
    if (contexts[conference])
        sprintf(context, "%d", contexts[conference]);
    added = c, c->conference = conference;
    ask("%s{Add=${Media{LocalControl{Mode=SendReceive},Local{v=0\nc=IN IP4 $\nm=audio $ RTP/AVP %d\n},"
        "Remote{v=0\nc=IN IP4 127.0.0.1\nm=audio %d RTP/AVP %d\n}}}}",
        context, c->payload_type, (int)(CALLER + 2 * (c - callers)), c->payload_type);
}

/* Handles the answer to the last request, the first time that it arrives. */
static void told(const char *answer)
{
    const char *media = strstr(answer, "m=audio ");
    made += sum_of(answer, "rtp/ps=");
    refused += strstr(answer, "Error=") != NULL;
    if (added && media && !strstr(answer, "Error=")) {
        contexts[added->conference] = atoi(strstr(answer, "Context=") + 8);
        added->termination = atoi(strstr(answer, "RTP/") + 4);
        added->port = atoi(media + 8);
        members[added->conference]++;
    }
    added = NULL;
}

/* Receives what is waiting at a caller's socket or the controller's. */
static void hear(int i)
{
    static uint8_t bytes[ANSWER];
    struct sockaddr_in from;
    socklen_t size = sizeof from;
    ssize_t n;
    int s = i < count ? callers[i].socket : control;
    while ((n = recvfrom(s, bytes, ANSWER - 1, 0, (struct sockaddr *)&from, &size)) >= 0) {
        take(from_gateway, ntohs(from.sin_port), i < count ? CALLER + 2 * i : CONTROLLER, bytes, n);
        if (i < count) {
            received++;
        } else {
            bytes[n] = 0;
            awaited--;
            if (!is_told)
                told((char *)bytes);
            is_told = 1;
        }
    }
    if (errno != EAGAIN)
        perror("receive");
}

static void hear_until(double end)
{
    struct epoll_event events[MOST];
    do {
        int n = epoll_wait(poll, events, MOST, 1);
        for (int i = 0; i < n; i++)
            hear(events[i].data.u32);
    } while (now() < end);
    if (awaited && now() > asked + PATIENCE) {
        fprintf(stderr, "no answer\n");
        exit(1);
    }
}

static void hear_answer(void)
{
    while (awaited)
        hear_until(now());
}

static struct caller *other_member(const struct caller *a)
{
    int i = chance(count);
    while (&callers[i] == a || !callers[i].termination || callers[i].conference != a->conference)
        i = (i + 1) % count;
    return &callers[i];
}

static void move(struct caller *a)
{
    int to = (a->conference + 1 + chance(conferences - 1)) % conferences;
    if (members[a->conference] < 3 || members[to] == FULL)
        return;
    ask("%d{Move=RTP/%d}", contexts[to], a->termination);
    members[a->conference]--, members[to]++;
    a->conference = to;
}

static void hang_up(struct caller *a)
{
    if (members[a->conference] < 3)
        return;
    ask("%d{Subtract=RTP/%d}", contexts[a->conference], a->termination);
    members[a->conference]--;
    a->termination = 0;
}

static void set_topology(struct caller *a)
{
    const char *words[] = {"Isolate", "Oneway", "Bothway"};
    char all[16] = "*", other[16];
    sprintf(other, "RTP/%d", other_member(a)->termination);
    ask("%d{Topology{RTP/%d,%s,%s}}", contexts[a->conference], a->termination, chance(8) ? other : all,
        words[chance(3)]);
}

static void set_mode(struct caller *a)
{
    const char *modes[] = {"SendReceive", "SendReceive", "SendReceive", "SendOnly",
                           "SendReceive", "ReceiveOnly", "Inactive",    "Loopback"};
    ask("%d{Modify=RTP/%d{Media{LocalControl{Mode=%s,nt/jit=%d}}}}", contexts[a->conference], a->termination,
        modes[chance(8)], 40 + 20 * chance(5));
}

/* Makes a change for a caller; a caller who has hung up calls again. */
static void change(void)
{
    struct caller *a = &callers[chance(count)];
    int of_twenty = chance(20);
    if (!a->termination)
        add(a, chance(conferences));
    else if (of_twenty == 0)
        hang_up(a);
    else if (of_twenty < 6 && conferences > 1)
        move(a);
    else if (of_twenty < 11)
        set_mode(a);
    else
        set_topology(a);
}

/* Sends each caller's packet for a period: quiet noise. On average, of 200 packets, one is lost, one is too short, one
   has another payload type, and one is sent twice. */
static void say(long period)
{
    static uint8_t packet[PACKET];
    for (struct caller *c = callers; c < callers + count; c++) {
        int luck = chance(200), n = luck == 1 ? PACKET - 80 : PACKET;
        uint32_t stamp = htonl((uint32_t)(period * 160)), source = htonl(1000 + (c - callers));
        packet[0] = 0x80, packet[1] = luck == 2 ? 13 : c->payload_type;
        packet[2] = period >> 8, packet[3] = period;
        memcpy(packet + 4, &stamp, 4);
        memcpy(packet + 8, &source, 4);
        for (int i = 12; i < PACKET; i++)
            packet[i] = (c->payload_type ? 0xd5 : 0xff) ^ (random() & 0xbf);
        if (!c->termination || luck == 0)
            continue;
        for (int times = luck == 3 ? 2 : 1; times > 0; times--)
            sent += send_off(c->socket, c->port, CALLER + 2 * (c - callers), packet, n);
    }
}

/* How many datagrams the kernel dropped at the ports from `first` up to, but not including, `end`. */
static long dropped(int first, int end)
{
    char text[512];
    long sum = 0;
    FILE *file = fopen("/proc/net/udp", "r");
    while (file && fgets(text, sizeof text, file)) {
        int port;
        long drops;
        if (sscanf(text, "%*d: %*x:%x %*x:%*x %*x %*x:%*x %*x:%*x %*x %*d %*d %*d %*d %*s %ld", &port, &drops) == 2
            && port >= first && port < end)
            sum += drops;
    }
    if (file)
        fclose(file);
    return sum;
}

static void open_all(void)
{
    poll = epoll_create1(0);
    for (int i = 0; i <= count; i++) {
        struct epoll_event event = {.events = EPOLLIN, .data.u32 = i};
        int s = bound(i < count ? CALLER + 2 * i : CONTROLLER, SOCK_NONBLOCK, BUFFER);
        *(i < count ? &callers[i].socket : &control) = s;
        epoll_ctl(poll, EPOLL_CTL_ADD, s, &event);
    }
}

static void write_file(const char *name, struct stream *streams)
{
    FILE *file = fopen(name, "w");
    if (!file) {
        perror(name);
        exit(1);
    }
    write_streams(streams, file);
    fclose(file);
}

int main(int argc, char **argv)
{
    if (argc != 5 || (count = atoi(argv[1])) < 2 || count > MOST)
        return 2;
    long periods = 50 * atol(argv[2]);
    open_all();
    conferences = count < 2 * A_CONFERENCE ? 1 : count / A_CONFERENCE;
    for (int i = 0; i < count; i++) {
        callers[i].payload_type = i % 3 ? 0 : 8;
        add(&callers[i], i % conferences);
        hear_answer();
    }
    double start = now();
    for (long k = 0; k < periods; k++) {
        if (k % 5 == 0 && !awaited)
            change();
        say(k);
        hear_until(start + (k + 1) * 0.02);
    }
    hear_answer();
    for (int i = 0; i < conferences; i++) {
        ask("%d{Subtract=*}", contexts[i]);
        hear_answer();
    }
    hear_until(now() + 0.3);
    printf("%d requests, of which %ld were refused; callers sent %ld packets, of which the kernel dropped %ld; of the "
           "%ld that the gateway made it dropped %ld, and callers got %ld\n",
           transaction, refused, sent, dropped(CONTROL, CONTROLLER), made, dropped(CONTROLLER, CALLER + 2 * count),
           received);
    write_file(argv[3], to_gateway);
    write_file(argv[4], from_gateway);
    return 0;
}
