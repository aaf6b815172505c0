"""Simulates callers whose packets are early, late or from two sources, in `mg_bridge replay`. Prints what is heard.

usage: callers.py BRIDGE

Two callers are in a conference. The first sends frames that contain their sequence numbers, at simulated times. A tick
comes every 20 ms, halfway between two packets of a punctual caller. In each tick, the second caller is sent the number
of a frame, or silence.
"""
import struct
import subprocess
import sys

ADD = ("Add=${Media{LocalControl{Mode=SendReceive%s},Local{v=0\\nc=IN IP4 $\\nm=audio $ RTP/AVP 0\\n},"
       "Remote{v=0\\nc=IN IP4 127.0.0.1\\nm=audio %d RTP/AVP 0\\n}}}")
# Each mu-law code from 128 on has its own level, and 255 is silence. A frame is the code for its number modulo this.
NUMBERS = 97


def packet(at, number, source=7, size=160):
    """Returns a packet that arrives at this time, in milliseconds."""
    head = struct.pack("!BBHII", 0x80, 0, number % 65536, number * 160 % 2 ** 32, source)
    return at, "rtp 30000 127.0.0.1:40000 " + head.hex() + "%02x" % (128 + number % NUMBERS) * size


def heard(packets, seconds, depth=80):
    """Returns what is sent in each tick: the number of a frame, modulo NUMBERS, or None."""
    control = ",nt/jit=%d" % depth
    lines = ["say 127.0.0.1:2945 MEGACO/1 [127.0.0.1]:2945 Transaction=1{Context=${%s,%s}}"
             % (ADD % (control, 40000), ADD % (control, 40002))]
    packets = sorted(packets)
    for tick in range(1, seconds * 50 + 1):
        while packets and packets[0][0] < 20 * tick + 10:
            lines.append(packets.pop(0)[1])
        lines.append("tick")
    said = {"stdout": subprocess.PIPE, "text": True, "check": True}
    run = subprocess.run([sys.argv[1], "replay"], input="\n".join(lines) + "\n", **said)
    sent = [bytes.fromhex(line.split()[3])[12] for line in run.stdout.split("\n") if line.startswith("rtp 30002 ")]
    return [None if code == 255 else code - 128 for code in sent]


def gaps(frames):
    """Returns the runs of silent ticks between frames: the start of each in seconds, and its length in ticks."""
    found, silent, begun = [], 0, False
    for tick, frame in enumerate(frames):
        if frame is None:
            silent += begun
        else:
            if silent:
                found.append(((tick - silent) / 50, silent))
            silent, begun = 0, True
    return found


def left_out(frames):
    """Returns how many frames were skipped between consecutive ticks."""
    pairs = [(a, b) for a, b in zip(frames, frames[1:]) if a is not None and b is not None]
    return sum((b - a - 1) % NUMBERS for a, b in pairs)


def steady(count, period=20.0):
    return [packet(k * period, k) for k in range(count)]


def main():
    for ppm in (500, -500):
        frames = heard(steady(int(400 * 50 * (1 + ppm / 1e6)), 20 / (1 + ppm / 1e6)), 400)
        print("a clock that is off by %d ppm, 400 s: %d frames passed over, gaps in ticks: %s"
              % (ppm, left_out(frames), [ticks for _, ticks in gaps(frames)]))
    both = steady(1000) + [packet(20 * k + 10, 5000 + k, 9) for k in range(200, 400)]
    frames = heard(both, 20)
    print("two sources at one port from 4 to 8 s: gaps: %s" % gaps(frames))
    for jump in (-10, -50, -100, -101, 10, 50):
        frames = heard([packet(20 * k, 1000 + k + (jump if k >= 250 else 0)) for k in range(500)], 10)
        print("numbers that jump by %d after 5 s: gaps: %s" % (jump, gaps(frames)))
    for size, period in ((80, 10), (240, 30)):
        frames = heard([packet(period * k, k, 7, size) for k in range(100)], 4)
        print("packets of %d ms: %d frames heard" % (period, sum(frame is not None for frame in frames)))
    for depth in (80, 120, 160, 240, 320):
        told = []
        for burst in (2, 3, 4, 5, 8):
            frames = heard([packet(20 * burst * (k // burst + 1), k) for k in range(1000)], 20, depth)[50:950]
            told.append("%d ms: %d" % (20 * burst, 100 * sum(frame is not None for frame in frames) // len(frames)))
        print("nt/jit=%d, bursts and how many in 100 ticks have a frame: %s" % (depth, ", ".join(told)))


main()
