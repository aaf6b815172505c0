/* Reads a recording or the output of its replay from standard input, and prints its datagrams in the form
   in which `calls` writes those that it sent and received.
   usage: lines */
#define _GNU_SOURCE
#include "streams.h"
#include <string.h>

static struct stream streams[STREAMS];
static uint8_t digit_of[256], bytes[65536];

/* Parses hexadecimal digits. */
static size_t read_digits(const char *at, const char *end)
{
    size_t n = 0;
    for (; at + 1 < end && n < sizeof bytes; at += 2)
        bytes[n++] = digit_of[(uint8_t)at[0]] << 4 | digit_of[(uint8_t)at[1]];
    return n;
}

/* Parses text with the escapes \n, \r and \\. */
static size_t read_text(const char *at, const char *end)
{
    size_t n = 0;
    for (; at < end && n < sizeof bytes; at++) {
        int is_written = *at == '\\' && at + 1 < end;
        at += is_written;
        bytes[n++] = !is_written ? *at : *at == 'n' ? '\n' : *at == 'r' ? '\r' : *at;
    }
    return n;
}

/* Reads the datagram of a line, if it has one; returns whether the line can occur in a recording or replay. */
static int line(char *at, const char *end)
{
    const char *host = "127.0.0.1:";
    int is_packet = strncmp(at, "rtp ", 4) == 0, is_text = strncmp(at, "say ", 4) == 0, gateway = CONTROL;
    if (*at == '#' || strcmp(at, "tick\n") == 0)
        return 1;
    if (!is_packet && !is_text && strncmp(at, "control ", 8) != 0)
        return 0;
    at = strchr(at, ' ') + 1;
    if (is_packet)
        gateway = strtol(at, &at, 10), at++;
    if (strncmp(at, host, strlen(host)) != 0)
        return 0;
    int other = strtol(at + strlen(host), &at, 10);
    if (*at++ != ' ')
        return 0;
    take(streams, gateway, other, bytes, is_text ? read_text(at, end) : read_digits(at, end));
    return 1;
}

int main(void)
{
    char *text = NULL;
    size_t room = 0;
    ssize_t n;
    for (int i = 0; i < 16; i++)
        digit_of[(uint8_t)"0123456789abcdef"[i]] = i;
    while ((n = getline(&text, &room, stdin)) > 0) {
        if (text[n - 1] != '\n' || !line(text, text + n - 1)) {
            fprintf(stderr, "no line of a recording or of a replay: %.80s\n", text);
            return 1;
        }
    }
    write_streams(streams, stdout);
    return 0;
}
