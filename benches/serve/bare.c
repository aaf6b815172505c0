/* Only receives and sends as many datagrams as a gateway does: the cost of the sockets without the gateway.
   usage: bare CALLERS SLOTS
   Lines from mg_pace drive it, as they drive a gateway. In a poll, it receives up to 64 datagrams from each port, and
   answers those at the control port. In a tick, it sends each caller a packet of 172 bytes. */
#define _GNU_SOURCE
#include "loopback.h"
#include <stdint.h>

int main(int argc, char **argv)
{
    static uint8_t buffer[65535], packet[172];
    static int s[257];
    char line[64];
    if (argc != 3)
        return 2;
    int callers = atoi(argv[1]), slots = atoi(argv[2]);
    for (int i = 0; i <= slots; i++)
        s[i] = bound(i ? 30000 + 2 * (i - 1) : 2944, SOCK_NONBLOCK, 0);
    puts("ready");
    fflush(stdout);
    while (fgets(line, sizeof line, stdin)) {
        if (!strcmp(line, "quit\n"))
            break;
        if (!strcmp(line, "poll\n"))
            for (int i = 0; i <= slots; i++)
                for (int n = 0; n < 64; n++) {
                    struct sockaddr_in from;
                    socklen_t size = sizeof from;
                    ssize_t got = recvfrom(s[i], buffer, sizeof buffer, 0, (struct sockaddr *)&from, &size);
                    if (got < 0)
                        break;
                    if (i == 0)
                        sendto(s[0], "Reply", 5, 0, (struct sockaddr *)&from, size);
                }
        if (!strcmp(line, "tick\n"))
            for (int i = 0; i < callers; i++)
                send_to(s[i + 1], 40000 + 2 * i, packet, sizeof packet);
    }
    return 0;
}
