// A hand-written mixer, with which a core's ticks are compared. It receives G.711 packets, keeps the total of each
// conference, and sends each caller the total without its own frame. It checks less than the gateway, keeps no
// counters, and has no modes (a caller talks or not) and no topology.
#define _POSIX_C_SOURCE 199309L
#include <stdint.h>
#include <stdio.h>
#include <stdlib.h>
#include <string.h>
#include <time.h>

enum { FRAME = 160, HEADER = 12, PACKET = HEADER + FRAME, CALLERS = 256, ROOMS = 64, WAITING = 8 };
enum { BEFORE = 8, TICKS = 400 };

struct caller {
    int16_t waiting[WAITING][FRAME];
    uint32_t is_there;
    int16_t frame[FRAME];
    uint16_t room, next, sequence, talks, alaw, shared;
    uint32_t timestamp, ssrc;
};

static struct caller callers[CALLERS];
static int32_t totals[ROOMS][FRAME];
static uint8_t outbox[CALLERS][PACKET];
static int16_t ulaw_samples[256], alaw_samples[256];

static void fill_tables(void) {
    for (int byte = 0; byte < 256; byte++) {
        int u = ~byte & 255;
        int v = ((((u & 15) << 3) + 132) << ((u >> 4) & 7)) - 132;
        ulaw_samples[byte] = (int16_t)(u & 128 ? -v : v);
        int a = byte ^ 0x55, e = (a >> 4) & 7;
        int w = e ? (((a & 15) << 4) + 264) << (e - 1) : ((a & 15) << 4) + 8;
        alaw_samples[byte] = (int16_t)(a & 128 ? w : -w);
    }
}

// A table of 256 samples is at least as fast as the vector code that gcc generates from the formula.
__attribute__((noinline)) static void decode(int alaw, const uint8_t *restrict in, int16_t *restrict out) {
    const int16_t *table = alaw ? alaw_samples : ulaw_samples;
    for (int i = 0; i < FRAME; i++) out[i] = table[in[i]];
}

#define LEAST(a, b) ((a) < (b) ? (a) : (b))

// The level is the minimum of several linear functions, which gcc vectorizes: these seven, and one more in mu-law.
static inline int16_t least_of_seven(int16_t x) {
    int16_t level = (int16_t)(x >> 4);
    level = LEAST(level, (int16_t)((x >> 5) + 16));
    level = LEAST(level, (int16_t)((x >> 6) + 32));
    level = LEAST(level, (int16_t)((x >> 7) + 48));
    level = LEAST(level, (int16_t)((x >> 8) + 64));
    level = LEAST(level, (int16_t)((x >> 9) + 80));
    return LEAST(level, (int16_t)((x >> 10) + 96));
}

__attribute__((noinline)) static void encode_ulaw(const int16_t *restrict in, uint8_t *restrict out) {
    for (int i = 0; i < FRAME; i++) {
        uint16_t size = (uint16_t)(in[i] < 0 ? -in[i] : in[i]);
        int16_t x = (int16_t)(size > 32635 ? 32767 : size + 132);
        int16_t level = LEAST((int16_t)((x >> 3) - 16), least_of_seven(x));
        out[i] = (uint8_t)(in[i] < 0 ? 127 - level : 255 - level);
    }
}

__attribute__((noinline)) static void encode_alaw(const int16_t *restrict in, uint8_t *restrict out) {
    for (int i = 0; i < FRAME; i++) {
        uint16_t size = (uint16_t)(in[i] < 0 ? -in[i] - 1 : in[i]);
        int16_t level = least_of_seven((int16_t)size);
        out[i] = (uint8_t)((in[i] < 0 ? level : level + 128) ^ 0x55);
    }
}

static void encode(int alaw, const int16_t *in, uint8_t *out) {
    if (alaw) encode_alaw(in, out); else encode_ulaw(in, out);
}

__attribute__((noinline)) static void change(int32_t *restrict total, const int16_t *restrict old,
                                             const int16_t *restrict new) {
    for (int i = 0; i < FRAME; i++) total[i] += new[i] - old[i];
}

__attribute__((noinline)) static void difference(const int32_t *restrict total, const int16_t *restrict own,
                                                 int32_t *restrict out) {
    for (int i = 0; i < FRAME; i++) out[i] = total[i] - own[i];
}

__attribute__((noinline)) static void limit(const int32_t *restrict in, int16_t *restrict out) {
    for (int i = 0; i < FRAME; i++) {
        int32_t v = in[i] < -32768 ? -32768 : in[i];
        out[i] = (int16_t)(v > 32767 ? 32767 : v);
    }
}

static uint16_t number16(const uint8_t *at) { return (uint16_t)(at[0] << 8 | at[1]); }

static void put16(uint8_t *at, uint16_t v) { at[0] = (uint8_t)(v >> 8); at[1] = (uint8_t)v; }

static void put32(uint8_t *at, uint32_t v) { put16(at, (uint16_t)(v >> 16)); put16(at + 2, (uint16_t)v); }

// A caller's packet waits for its tick.
__attribute__((noinline)) static int arrive(uint16_t port, const uint8_t *bytes, size_t count) {
    unsigned slot = (unsigned)(port - 30000) / 2;
    if (slot >= CALLERS || count != PACKET || bytes[0] >> 6 != 2) return 0;
    struct caller *c = &callers[slot];
    if ((bytes[1] & 127) != (c->alaw ? 8 : 0)) return 0;
    unsigned at = number16(bytes + 2) % WAITING;
    decode(c->alaw, bytes + HEADER, c->waiting[at]);
    c->is_there |= 1u << at;
    return 1;
}

static const int16_t silent[FRAME];

static void play(struct caller *c) {
    unsigned at = c->next++ % WAITING;
    const int16_t *frame = c->is_there & 1u << at ? c->waiting[at] : silent;
    c->is_there &= ~(1u << at);
    if (c->talks) change(totals[c->room], c->frame, frame);
    memcpy(c->frame, frame, sizeof c->frame);
}

// The first caller in a room who does not talk shares its payload with the others who do not.
static void send(struct caller *c, uint8_t *packet, const uint8_t **lent) {
    int32_t rest[FRAME];
    int16_t mix[FRAME];
    packet[0] = 0x80;
    packet[1] = (uint8_t)(c->alaw ? 8 : 0);
    put16(packet + 2, c->sequence++);
    put32(packet + 4, c->timestamp);
    put32(packet + 8, c->ssrc);
    c->timestamp += FRAME;
    if (!c->talks && *lent) {
        memcpy(packet + HEADER, *lent, FRAME);
        return;
    }
    difference(totals[c->room], c->talks ? c->frame : silent, rest);
    limit(rest, mix);
    encode(c->alaw, mix, packet + HEADER);
    if (!c->talks) *lent = packet + HEADER;
}

__attribute__((noinline)) static void tick(int count) {
    const uint8_t *lent[ROOMS] = {0};
    for (int i = 0; i < count; i++) play(&callers[i]);
    for (int i = 0; i < count; i++) send(&callers[i], outbox[i], &lent[callers[i].room]);
}

static double now(void) {
    struct timespec t;
    clock_gettime(CLOCK_MONOTONIC, &t);
    return (double)t.tv_sec * 1e9 + (double)t.tv_nsec;
}

static void speak(uint8_t *packet, unsigned n, unsigned caller) {
    memset(packet, 0, HEADER);
    packet[0] = 0x80;
    put16(packet + 2, (uint16_t)n);
    packet[11] = 7;
    for (int i = 0; i < FRAME; i++) packet[HEADER + i] = (uint8_t)((i * 7) ^ (caller % 256) ^ (n % 256));
}

static double arriving(unsigned n, int talkers) {
    double all = 0;
    for (int caller = 0; caller < talkers; caller++) {
        uint8_t packet[PACKET];
        speak(packet, n, (unsigned)caller);
        double start = now();
        arrive((uint16_t)(30000 + 2 * caller), packet, PACKET);
        all += now() - start;
    }
    return all;
}

// The minimum times of a tick and of the arrivals before it.
static void tell(int count, int talkers, int rooms) {
    double least_tick = 1e18, least_arrivals = 1e18;
    memset(callers, 0, sizeof callers);
    memset(totals, 0, sizeof totals);
    for (int i = 0; i < count; i++) {
        callers[i].room = (uint16_t)(i * rooms / count);
        callers[i].talks = (uint16_t)(i < talkers);
    }
    for (unsigned n = 0; n < BEFORE + TICKS; n++) {
        double arrivals = arriving(n, talkers);
        double start = now();
        tick(count);
        double took = now() - start;
        if (n < BEFORE) continue;
        least_tick = LEAST(least_tick, took);
        least_arrivals = LEAST(least_arrivals, arrivals);
    }
    printf("%d callers in %d, %d talk: tick %.0f, %d packets; %d arrivals %.0f\n", count, rooms, talkers, least_tick,
           count, talkers, least_arrivals);
}

int main(void) {
    fill_tables();
    printf("ns, by hand in C\n");
    tell(2, 2, 1);
    tell(8, 8, 1);
    tell(32, 32, 1);
    tell(64, 64, 2);
    tell(64, 64, 1);
    tell(32, 1, 1);
    return 0;
}
