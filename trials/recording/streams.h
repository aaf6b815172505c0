/* Datagrams to or from a gateway on 127.0.0.1, as a count and a hash for each pair of a gateway port and another port.
   The hash is the 64-bit FNV-1a over all datagrams in order, each as a two-byte length followed by its bytes. */
#include <stdint.h>
#include <stdio.h>
#include <stdlib.h>

/* The gateway's control port and first media port; above them the ports of the controller and of the first caller. */
enum { CONTROL = 15944, MEDIA = 16000, CONTROLLER = 16998, CALLER = 17000 };

enum { STREAMS = 1 << 17 };

struct stream {
    int gateway, other;
    long count;
    uint64_t hash;
};

static uint64_t hash_over(uint64_t hash, const uint8_t *bytes, size_t n)
{
    for (size_t i = 0; i < n; i++)
        hash = (hash ^ bytes[i]) * 0x100000001b3;
    return hash;
}

static void take(struct stream *streams, int gateway, int other, const uint8_t *bytes, size_t n)
{
    uint8_t length[2] = {n >> 8, n};
    unsigned at = (gateway * 512u + other) % STREAMS;
    while (streams[at].count && (streams[at].gateway != gateway || streams[at].other != other))
        at = (at + 1) % STREAMS;
    struct stream *s = &streams[at];
    if (!s->count)
        *s = (struct stream){.gateway = gateway, .other = other, .hash = 0xcbf29ce484222325};
    s->count++;
    s->hash = hash_over(hash_over(s->hash, length, 2), bytes, n);
}

static int by_ports(const void *a, const void *b)
{
    const struct stream *s = a, *t = b;
    return s->gateway != t->gateway ? s->gateway - t->gateway : s->other - t->other;
}

/* Writes `GATEWAY OTHER COUNT HASH` for each pair, ordered by port. */
static void write_streams(struct stream *streams, FILE *out)
{
    int n = 0;
    for (int i = 0; i < STREAMS; i++)
        if (streams[i].count)
            streams[n++] = streams[i];
    qsort(streams, n, sizeof *streams, by_ports);
    for (struct stream *s = streams; s < streams + n; s++)
        fprintf(out, "%d %d %ld %016lx\n", s->gateway, s->other, s->count, s->hash);
}
