/* Callers in conferences on a gateway: each sends a 20 ms packet every 20 ms, and receives the packets that it is sent.
   usage: load CALLERS A_CONFERENCE SECONDS
   The gateway is on 127.0.0.1, with control port 2944 and media ports from 30000 on. */
#define _GNU_SOURCE
#include "loopback.h"
#include <stdint.h>
#include <unistd.h>

enum { MOST = 256, A_REQUEST = 16, PACKET = 172, ANSWER = 65536 };

/* Sends a message to the gateway, and waits for its answer. */
static void ask(int s, const char *text, char *answer)
{
    struct timeval limit = {.tv_sec = 2};
    setsockopt(s, SOL_SOCKET, SO_RCVTIMEO, &limit, sizeof limit);
    send_to(s, 2944, text, strlen(text));
    ssize_t n = recv(s, answer, ANSWER - 1, 0);
    if (n < 0) {
        fprintf(stderr, "no answer\n");
        exit(1);
    }
    answer[n] = 0;
    if (strstr(answer, "Error=")) {
        fprintf(stderr, "%s\n", answer);
        exit(1);
    }
}

int main(int argc, char **argv)
{
    static char text[16384], answer[ANSWER];
    static int socket_of[MOST];
    if (argc != 4)
        return 2;
    int callers = atoi(argv[1]), members = atoi(argv[2]), seconds = atoi(argv[3]);
    int control = bound(2945, 0, 0);
    for (int i = 0; i < callers; i++)
        socket_of[i] = bound(40000 + 2 * i, SOCK_NONBLOCK, 1 << 20);
    for (int i = 0, n = 0; i < callers; i++) {
        int at = i % members, is_first = at % A_REQUEST == 0;
        if (is_first) {
            n = sprintf(text, "MEGACO/1 [127.0.0.1]:2945\nTransaction=%d{Context=", i + 1);
            n += at ? sprintf(text + n, "%d{", i / members + 1) : sprintf(text + n, "${");
        }
        n += sprintf(text + n,
                     "%sAdd=${Media{LocalControl{Mode=SendReceive},"
                     "Local{v=0\nc=IN IP4 $\nm=audio $ RTP/AVP 0\n},"
                     "Remote{v=0\nc=IN IP4 127.0.0.1\nm=audio %d RTP/AVP 0\n}}}",
                     is_first ? "" : ",", 40000 + 2 * i);
        if (i + 1 < callers && (i + 1) % members && (at + 1) % A_REQUEST)
            continue;
        sprintf(text + n, "}}");
        ask(control, text, answer);
    }
    uint8_t packet[PACKET] = {0x80}, taken[2048];
    for (int i = 12; i < PACKET; i++)
        packet[i] = 0x80 | (i * 37 & 0x7f);
    long sent = 0, received = 0;
    double start = now(), latest = 0, gap = 0;
    for (long k = 0; k < 50L * seconds + 25; k++) {
        double point = start + k * 0.02;
        struct timespec t = {.tv_sec = (time_t)point, .tv_nsec = (long)((point - (time_t)point) * 1e9)};
        clock_nanosleep(CLOCK_MONOTONIC, TIMER_ABSTIME, &t, NULL);
        if (k < 50L * seconds)
            for (int i = 0; i < callers; i++) {
                uint32_t stamp = htonl((uint32_t)(k * 160)), source = htonl(1000 + i);
                packet[2] = k >> 8, packet[3] = k;
                memcpy(packet + 4, &stamp, 4);
                memcpy(packet + 8, &source, 4);
                sent += send_to(socket_of[i], 30000 + 2 * i, packet, PACKET) == PACKET;
            }
        for (double end = point + 0.0195; now() < end;) {
            long before = received;
            for (int i = 0; i < callers; i++)
                while (recv(socket_of[i], taken, sizeof taken, 0) == PACKET) {
                    received++;
                    if (i == 0) {
                        double at = now();
                        if (latest && at - latest > gap)
                            gap = at - latest;
                        latest = at;
                    }
                }
            if (received == before)
                usleep(500);
        }
    }
    long in = 0, out = 0;
    for (int first = 0; first < callers; first += members) {
        int context = first / members + 1;
        sprintf(text, "MEGACO/1 [127.0.0.1]:2945\nTransaction=%d{Context=%d{Subtract=*}}", 1000 + context, context);
        ask(control, text, answer);
        in += sum_of(answer, "rtp/pr=");
        out += sum_of(answer, "rtp/ps=");
    }
    while (now() < latest + 0.2)
        usleep(1000);
    for (int i = 0; i < callers; i++)
        while (recv(socket_of[i], taken, sizeof taken, 0) == PACKET)
            received++;
    printf("callers sent %ld packets, the gateway took %ld and sent %ld, callers got %ld\n", sent, in, out, received);
    printf("longest gap between two packets to a caller: %.1f ms\n", gap * 1e3);
    return 0;
}
