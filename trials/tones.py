"""Tones in mu-law, for the trials."""
import math

# G.711: samples per second and per packet.
RATE, FRAME = 8000, 160
LOUDNESS = 8000
# For each mu-law byte, the sample that it denotes.
LEVELS = [4 * (((2 * (code & 0x0F) + 33) << (code >> 4)) - 33) for code in range(128)]
SAMPLES = [-one for one in reversed(LEVELS)] + LEVELS[::-1]


def tone(pitch):
    """Returns a frame of a tone. It can be repeated without a click, if the pitch is a multiple of 50 Hz."""
    sound = [LOUDNESS * math.sin(2 * math.pi * pitch * n / RATE) for n in range(FRAME)]
    return bytes(min(range(256), key=lambda code: abs(SAMPLES[code] - sample)) for sample in sound)


def level(samples, pitch):
    """Returns how loud a tone is in the samples: 1 means as loud as it was sent. Uses Goertzel's algorithm."""
    turn = 2 * math.pi * pitch / RATE
    last = before = 0.0
    for sample in samples:
        last, before = sample + 2 * math.cos(turn) * last - before, last
    return 2 * math.hypot(last - before * math.cos(turn), before * math.sin(turn)) / len(samples) / LOUDNESS
