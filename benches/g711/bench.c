// Nanoseconds per sample to encode and decode frames of 160 samples, compared with C tables that the same functions
// filled: 65,536 bytes to encode, 256 samples to decode.
#include <stdint.h>
#include <stdio.h>
#include <time.h>

void g711_bench_encode(uint8_t payload_type, const int16_t *samples, size_t samples_len, uint8_t *bytes,
                       size_t bytes_len);
void g711_bench_decode(uint8_t payload_type, const uint8_t *bytes, size_t bytes_len, int16_t *samples,
                       size_t samples_len);

enum { FRAME = 160, FRAMES = 128, TURNS = 50, RUNS = 300 };

static int16_t samples[FRAMES][FRAME], decoded[FRAMES][FRAME];
static uint8_t bytes[FRAMES][FRAME];
static uint8_t encode_table[2][65536];
static int16_t decode_table[2][256];

// Not inlined, because calls into the library are not inlined either.
__attribute__((noinline)) static void table_encode(int a_law, const int16_t *in, uint8_t *out) {
    const uint8_t *table = encode_table[a_law];
    for (int i = 0; i < FRAME; i++) out[i] = table[(uint16_t)in[i]];
}

__attribute__((noinline)) static void table_decode(int a_law, const uint8_t *in, int16_t *out) {
    const int16_t *table = decode_table[a_law];
    for (int i = 0; i < FRAME; i++) out[i] = table[in[i]];
}

static double now(void) {
    struct timespec t;
    clock_gettime(CLOCK_MONOTONIC, &t);
    return t.tv_sec * 1e9 + t.tv_nsec;
}

// The minimum of several runs, which other work on the machine disturbs least.
#define LEAST_NS(STEP) ({ \
    double least = 1e18; \
    for (int run = 0; run < RUNS; run++) { \
        double start = now(); \
        for (int turn = 0; turn < TURNS; turn++) \
            for (int f = 0; f < FRAMES; f++) { STEP; __asm__ volatile("" ::: "memory"); } \
        double took = (now() - start) / ((double)TURNS * FRAMES * FRAME); \
        if (took < least) least = took; \
    } \
    least; })

static void fill_tables(int a_law) {
    int16_t in[FRAME] = {0};
    uint8_t out[FRAME] = {0};
    for (int v = 0; v < 65536; v++) {
        in[0] = (int16_t)v;
        g711_bench_encode(a_law ? 8 : 0, in, FRAME, out, FRAME);
        encode_table[a_law][v] = out[0];
    }
    for (int b = 0; b < 256; b++) {
        out[0] = (uint8_t)b;
        g711_bench_decode(a_law ? 8 : 0, out, FRAME, in, FRAME);
        decode_table[a_law][b] = in[0];
    }
}

int main(void) {
    // Noise over the whole range, from a linear congruential generator: the same in each run.
    uint32_t state = 1;
    for (int f = 0; f < FRAMES; f++)
        for (int i = 0; i < FRAME; i++) {
            state = state * 1664525u + 1013904223u;
            samples[f][i] = (int16_t)(state >> 16);
        }
    printf("ns a sample          mg_g711   table in C\n");
    for (int a_law = 0; a_law < 2; a_law++) {
        uint8_t type = a_law ? 8 : 0;
        const char *law = a_law ? "A-law " : "mu-law";
        fill_tables(a_law);
        double ours = LEAST_NS(g711_bench_encode(type, samples[f], FRAME, bytes[f], FRAME));
        double table = LEAST_NS(table_encode(a_law, samples[f], bytes[f]));
        printf("encode_frame %s   %7.2f   %10.2f\n", law, ours, table);
        ours = LEAST_NS(g711_bench_decode(type, bytes[f], FRAME, decoded[f], FRAME));
        table = LEAST_NS(table_decode(a_law, bytes[f], decoded[f]));
        printf("decode_frame %s   %7.2f   %10.2f\n", law, ours, table);
    }
    return 0;
}
