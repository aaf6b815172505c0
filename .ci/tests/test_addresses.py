"""Options that name addresses, and gateways with several addresses."""
import contextlib

from media import add, added, conference, request
from programs import FIRST, Commands, Gateway, counted, ports, udp, waiting


class Addresses(Commands):
    def test_named_in_answers(self):
        offer = (
            "say 10.0.0.9:2945 MEGACO/1 [10.0.0.9]:2945 Transaction=1{Context=${Add=${Media{Local{"
            "v=0\\nc=IN IP4 $\\nm=audio $ RTP/AVP 0\\n}}}}}\n"
        )
        answer = (
            "say 10.0.0.9:2945 MEGACO/1 [10.0.0.1]:2944\\nReply=1{Context=1{Add=RTP/1{Media{Stream=1{Local{"
            "v=0\\r\\nc=IN IP4 10.0.0.1\\r\\nm=audio 30000 RTP/AVP 0\\r\\na=ptime:20\\r\\n}}}}}}\n"
        )
        for address in ("10.0.0.1", "010.00.000.1"):
            self.ends(0, answer, "", "replay", "--address", address, text=offer)

    def test_not_dotted_decimal(self):
        wanted = "error: invalid value for '--address <ADDRESS>': not an IPv4 address in dotted decimal\n"
        for text in ("1.2.3", "1.2.3.4.5", "1.2.3.256", "1.2.3.0004", "::1", "localhost", " 1.2.3.4"):
            self.refuses(wanted, "replay", "--address", text)
        self.refuses(wanted.replace("--address", "--bind-address"), "live", "--bind-address", "localhost")
        self.refuses(wanted.replace("--address", "--controller"), "live", "--controller", "localhost")

    def test_unspecified(self):
        wanted = "error: invalid value for '--address <ADDRESS>': callers cannot send to 0.0.0.0\n"
        for words in (
            ["replay", "--address", "0.0.0.0"],
            ["serve", "--address", "0.0.0.0"],
            ["serve", "--address=000.0.00.0", "--slots", "0"],
        ):
            self.refuses(wanted, *words)

    def test_not_unicast(self):
        wanted = "error: invalid value for '--address <ADDRESS>': not a unicast address\n"
        for text in ("224.0.0.1", "239.255.255.255", "240.0.0.0", "255.255.255.255"):
            self.refuses(wanted, "live", "--address", text)
        self.refuses(wanted.replace("--address", "--bind-address"), "serve", "--bind-address", "224.0.0.1")

    def test_controllers(self):
        words = ["serve", "--control-port=0", *(f"--controller=10.0.0.{n}" for n in range(1, 9))]
        self.refuses("bad configuration: --control-port", *words)
        self.refuses(
            "error: invalid value for '--controller <ADDRESS>': more than 8 controllers\n",
            *words,
            "--controller=10.0.0.9",
        )

    def test_to_bind(self):
        words = ["serve", "--control-port=0", *(f"--bind-address=127.0.0.{n}" for n in range(1, 9))]
        self.refuses("bad configuration: --control-port", *words)
        self.refuses(
            "error: invalid value for '--bind-address <ADDRESS>': more than 8 addresses\n",
            *words,
            "--bind-address=127.0.0.9",
        )
        second = "error: invalid value for '--bind-address <ADDRESS>': not a unicast address\n"
        self.refuses(second, *words[:3], "--bind-address=224.0.0.1")

    def test_of_a_gateway_to_check(self):
        wanted = "error: invalid value for '<ADDRESS:PORT>': not an IPv4 address, a colon and a port\n"
        for text in ("localhost:2944", "127.0.0.1", "127.0.0.1:65536", ":2944"):
            self.refuses(wanted, "check", text)

    def test_to_check_from(self):
        for text, why in (
            ("localhost", "not an IPv4 address in dotted decimal"),
            ("127.0.0.1:0", "not an IPv4 address in dotted decimal"),
            ("0.0.0.0", "nobody can send from 0.0.0.0"),
            ("224.0.0.1", "not a unicast address"),
        ):
            wanted = f"error: invalid value for '--source <ADDRESS>': {why}\n"
            self.refuses(wanted, "check", "127.0.0.1:2944", f"--source={text}")

    def test_of_another_machine(self):
        wanted = "cannot bind 192.0.2.1:{port}: Cannot assign requested address (os error 99)\n"
        for option in ("--address=192.0.2.1", "--bind-address=192.0.2.1"):
            self.ends(5, "", wanted.format(port=FIRST), "serve", option, *ports(0, 2), text="quit\n")

    def test_bound_other_than_named(self):
        words = ["serve", "--address=192.0.2.1", "--bind-address=127.0.0.1", *ports(0, 2)]
        self.ends(0, "ready\n", "", *words, text="quit\n")

    def test_bound_twice(self):
        wanted = "cannot bind 127.0.0.2:{port}: Address already in use (os error 98)\n".format(port=FIRST)
        for first in ("0.0.0.0", "127.0.0.2"):
            words = [f"--bind-address={first}", "--bind-address=127.0.0.2", *ports(0, 2)]
            self.ends(5, "", wanted, "serve", *words, text="quit\n")

    def test_announced(self):
        words = ["--bind-address=127.0.0.2", "--bind-address=127.0.0.1", *ports(0, 1)]
        with Gateway("live", *words) as gateway:
            self.assertIn("bound to: 127.0.0.2 127.0.0.1\n", gateway.said)


HOSTS = ("127.0.0.1", "127.0.0.2", "127.0.0.3")
BOUND = [f"--bind-address={host}" for host in HOSTS]
AUDIT = "Context=-{AuditValue=ROOT}"
NAME = f"MEGACO/1 [127.0.0.1]:{FIRST}\n"


def reply(number):
    """The reply to an audit with this number."""
    return f"{NAME}Reply={number}{{Context=-{{AuditValue=ROOT}}}}".encode()


@contextlib.contextmanager
def controllers():
    """A socket for each control port. It receives only what that control port sends."""
    with contextlib.ExitStack() as stack:
        sockets = [stack.enter_context(udp()) for _ in HOSTS]
        for host, it in zip(HOSTS, sockets):
            it.connect((host, FIRST))
        yield sockets


class SeveralControlPorts(Commands):
    def test_answers_leave_from_the_address_that_was_asked(self):
        for name in ("serve", "live"):
            with self.subTest(name), controllers() as asking, Gateway(name, *BOUND, *ports(0, 1)) as gateway:
                order = [asking[place] for place in (0, 2, 2, 1, 0, 1)] * 4
                for number, it in enumerate(order, 1):
                    it.send(request(number, AUDIT))
                    if number % 4 == 0:
                        self.poll(gateway, name, number)
                for number, it in enumerate(order, 1):
                    self.assertEqual(it.recv(2000), reply(number))
                self.assertEqual([waiting(it) for it in asking], [[], [], []])

    def poll(self, gateway, name, count):
        """Has the gateway receive what waits, if it doesn't do so by itself."""
        if name == "serve":
            self.assertEqual(gateway.received(count, 0), counted(control=count, sent=count))

    def test_a_retransmission_is_answered_from_its_own_address(self):
        for name in ("serve", "live"):
            with self.subTest(name), controllers() as asking, udp() as caller:
                with Gateway(name, *BOUND, *ports(0, 1)) as gateway:
                    port = caller.getsockname()[1]
                    message, answer = conference(add(port)), f"{NAME}Reply=1{{Context=1{{{added(1, FIRST + 2)}}}}}"
                    for count, place in enumerate((1, 2, 0, 1), 1):
                        asking[place].send(message)
                        self.poll(gateway, name, count)
                        self.assertEqual(asking[place].recv(2000), answer.encode())
                    # Speech leaves from the first address.
                    if name == "serve":
                        gateway.tell("tick")
                    packet, source = caller.recvfrom(2000)
                    self.assertEqual((len(packet), source), (172, ("127.0.0.1", FIRST + 2)))
                    self.assertEqual([waiting(it) for it in asking], [[], [], []])

    def test_a_flood_delays_no_other_address(self):
        with controllers() as asking, Gateway("serve", *BOUND, *ports(0, 1)) as gateway:
            for number in range(1, 101):
                asking[1].send(request(number, AUDIT))
            for number, it in ((101, asking[0]), (102, asking[2])):
                it.send(request(number, AUDIT))
            # A poll receives at most 64 messages, from all control ports together.
            self.assertEqual(gateway.stats("poll"), counted(control=64, sent=64))
            self.assertEqual((asking[0].recv(2000), asking[2].recv(2000)), (reply(101), reply(102)))
            self.assertEqual(gateway.received(102, 0), counted(control=102, sent=102))
            self.assertEqual([asking[1].recv(2000) for _ in range(100)], [reply(number) for number in range(1, 101)])

    def test_controllers_are_checked_at_each_port(self):
        with controllers() as asking, udp("127.0.0.2") as listed:
            listed.connect((HOSTS[2], FIRST))
            with Gateway("serve", *BOUND, "--controller=127.0.0.2", *ports(0, 1)) as gateway:
                for it in (*asking, listed):
                    it.send(request(1, AUDIT))
                self.assertEqual(gateway.received(1, 0), counted(control=1, sent=1))
                self.assertEqual(listed.recv(2000), reply(1))
                self.assertEqual([waiting(it) for it in asking], [[], [], []])
