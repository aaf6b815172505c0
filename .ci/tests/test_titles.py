"""The first line of a recording: the options of a replay."""
import re

from media import add, added, conference, request
from programs import FIRST, Commands, Gateway, ports

PORTS = f"--control-port={FIRST} --base-port={FIRST + 2} --slots=1"


class Titles(Commands):
    def test_options_that_are_not_given_have_their_defaults(self):
        with Gateway("serve", "--record", *ports(0, 1)) as gateway:
            wanted = (
                f"# mg_bridge replay --address=127.0.0.1 --control-address=127.0.0.1 {PORTS} --first-termination=1"
                " --first-context=1 --ssrc=0 --sequence=0 --timestamp=0\n"
            )
            self.assertEqual((gateway.title, gateway.ready), (wanted, "ready\n"))

    def test_a_replay_takes_each_option(self):
        numbers = "--first-termination=4294967294 --first-context=4294967292 --ssrc=4294967293 --sequence=65533"
        words = f"--address=203.0.113.255 --control-address=198.51.100.254 {PORTS} {numbers} --timestamp=4294967292"
        with Gateway("serve", "--record", "--bind-address=127.0.0.1", *words.split()) as gateway:
            self.assertEqual(gateway.title, f"# mg_bridge replay {words}\n")
            title = gateway.title.split()
        lines = [conference(add(40000)), request(2, "Context=${Add=$}"), request(3, "Context=4294967292{Add=$}")]
        text = "".join("control 127.0.0.1:2945 " + line.hex() + "\n" for line in lines) + "tick\n"
        local = added(4294967294, FIRST + 2, "203.0.113.255").replace("\r", "\\r").replace("\n", "\\n")
        full = 'Add=${Error=432{"no termination or port left"}}'
        wanted = [f"Reply=1{{Context=4294967292{{{local}}}}}", f"Reply=2{{Context=${{{full}}}}}"]
        wanted += [f"Reply=3{{Context=4294967292{{{full}}}}}"]
        name = f"say 127.0.0.1:2945 MEGACO/1 [198.51.100.254]:{FIRST}\\n"
        # The SSRC is the sum of the option and the termination's number.
        packet = f"rtp {FIRST + 2} 127.0.0.1:40000 8080fffdfffffffcfffffffb" + "ff" * 160 + "\n"
        self.ends(0, "".join(f"{name}{line}\n" for line in wanted) + packet, "", *title[2:], text=text)

    def drawn(self, *words):
        """The SSRC, sequence number and timestamp of a gateway that runs in real time, as ten bytes."""
        with Gateway("live", "--record", *ports(0, 1), *words) as gateway:
            found = re.search(r" --ssrc=([0-9]+) --sequence=([0-9]+) --timestamp=([0-9]+)\n", gateway.title)
        return b"".join(int(digits).to_bytes(size, "big") for digits, size in zip(found.groups(), (4, 2, 4)))

    def test_numbers_that_no_option_gives_are_drawn(self):
        # A byte is the same in all runs with a probability of 1 in 16 million. Two bytes equal each other in all runs
        # with a probability of 1 in 4,000 million.
        runs = [self.drawn() for _ in range(4)]
        places = list(zip(*runs))
        self.assertTrue(all(len(set(it)) > 1 for it in places), runs)
        self.assertEqual(len(set(places)), 10, runs)

    def test_numbers_that_an_option_gives_are_not_drawn(self):
        for option, part in {"ssrc": slice(0, 4), "sequence": slice(4, 6), "timestamp": slice(6, 10)}.items():
            runs = [self.drawn(f"--{option}=0") for _ in range(2)]
            self.assertFalse(any(any(run[part]) for run in runs), runs)
            self.assertNotEqual(runs[0], runs[1])
