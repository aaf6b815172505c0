"""When a talker's speech reached a listener."""
from media import SILENCE, add, conference, request, spoken
from programs import ROOT, Commands
from test_heard import HEAD, TITLE

# A frame as loud as mu-law allows.
LOUD = b"\x00" * 160


def say(message):
    """The line of a message."""
    text = message.decode().replace("\n", "\\n")
    return f"say 127.0.0.1:2945 {text}\n"


def frames(port, *payloads):
    """Lines in which a caller sends a frame before each tick."""
    lines = (f"rtp {port} 127.0.0.1:40000 {spoken(it, payload).hex()}\ntick\n" for it, payload in enumerate(payloads))
    return "".join(lines)


# Two callers. The first speaks, and then sends silence. Frames wait for two ticks before they are played.
PAIR = say(conference(add(40000), add(40002)))
SPEECH = TITLE + PAIR + frames(30000, *[LOUD] * 4, *[SILENCE] * 4) + "tick\n" * 4
HEARD = "RTP/2 (127.0.0.1:40002) heard RTP/1 (127.0.0.1:40000) in context 1 from tick 2 until tick 6\n"


class Audible(Commands):
    def audible(self, output, *words, talker="RTP/1", text=SPEECH, errors="", status=0):
        """Checks what is printed about a talker."""
        self.ends(status, output, errors, "heard", "--audible", "--talker", talker, *words, text=text)

    def test_speech_and_silence(self):
        self.audible(HEARD)
        self.audible("", talker="RTP/2")
        self.audible("", talker="RTP/3")
        counted = SPEECH.replace(TITLE, TITLE + "# counted ticks\n").replace("tick\n" * 4, "ticks 4\n")
        self.assertEqual(counted.count("ticks 4\n"), 1)
        self.audible(HEARD, text=counted)
        # The speech lasts until the end of the script.
        self.audible(HEARD.replace("tick 6", "the end"), text=TITLE + PAIR + frames(30000, *[LOUD] * 6))

    def test_isolation(self):
        """In the recording, the third caller speaks until tick 10, and is isolated from tick 5 to tick 8."""
        text = (ROOT / "examples/recording.txt").read_text()
        rows = [
            f"audible,RTP/{it},127.0.0.1:{39998 + 2 * it},RTP/3,127.0.0.1:40004,1,{first},{end},,,,\n"
            for first, end in ((2, 5), (8, 10)) for it in (1, 2)
        ]
        self.audible(f"{HEAD}\n" + "".join(rows), "--format=csv", talker="RTP/3", text=text)
        self.audible(f"{HEAD}\n" + rows[1] + rows[3], "--format=csv", "--listener=RTP/2", talker="RTP/3", text=text)

    def test_times(self):
        text = SPEECH.replace(TITLE, TITLE + "# time 2026-11-27T14:03:20Z\n")
        line = (
            '{"kind":"audible","listener":"RTP/2","listener_at":"127.0.0.1:40002","talker":"RTP/1",'
            '"talker_at":"127.0.0.1:40000","context":1,"first_tick":2,"end_tick":6,'
            '"from":"2026-11-27T14:03:20.04Z","until":"2026-11-27T14:03:20.12Z",'
            '"listener_name":null,"talker_name":null}\n'
        )
        for words, wanted in (
            ([], line),
            (["--from=2026-11-27T14:03:20.1Z", "--to=2026-11-27T14:03:20.1Z"], line),
            (["--from=2026-11-27T14:03:20.12Z"], ""),
            (["--to=2026-11-27T14:03:20.04Z"], ""),
        ):
            self.audible(wanted, "--format=json", *words, text=text)

    def test_another_termination_with_the_same_port(self):
        change = say(request(2, f"Context=1{{Subtract=RTP/1{{Audit{{}}}},{add(40000)}}}"))
        text = TITLE + PAIR + change + frames(30000, *[LOUD] * 4) + "tick\n" * 4
        self.audible("", text=text)
        self.audible(HEARD.replace("RTP/1", "RTP/3"), talker="RTP/3", text=text)

    def test_loopback(self):
        text = TITLE + say(conference(add(40000, "Loopback"), add(40002))) + frames(30000, *[LOUD] * 4) + "tick\n" * 4
        self.audible(HEARD.replace("RTP/2 (127.0.0.1:40002)", "RTP/1 (127.0.0.1:40000)"), text=text)

    def test_a_journal(self):
        errors = "standard input: no RTP datagrams, so nothing is audible; a journal has none, a recording does\n"
        self.audible("", text=TITLE + PAIR + "tick\n" * 4, errors=errors)
        self.audible("", text=TITLE + PAIR + "# counted ticks\nticks 4320000\n", errors=errors)

    def test_more_ticks_than_those_of_a_day(self):
        for count in (4320001, 18446744073709551615):
            text = TITLE + PAIR + f"# counted ticks\nticks {count}\n"
            self.audible("", text=text, errors="standard input: too many ticks\n", status=6)
