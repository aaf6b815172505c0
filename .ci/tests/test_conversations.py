"""What a gateway sends to callers and controllers, on real sockets."""
from media import SILENCE, add, added, conference, sent, spoken
from programs import FIRST, HEARTBEAT, Commands, Gateway, bound, counted, ports, udp, waiting

CONTROL = ("127.0.0.1", FIRST)
NAME = f"MEGACO/1 [127.0.0.1]:{FIRST}\n"


def port_of(caller):
    return caller.getsockname()[1]


class Conversations(Commands):
    def test_each_caller_hears_the_other(self):
        frames = [(b"\x80" * 160, b"\x00" * 160), (b"\x12" * 160, b"\x9c" * 160), (b"\xa1" * 160, b"\x33" * 160)]
        with udp() as first, udp() as second, Gateway("serve", *ports(0, 2)) as gateway:
            # Each socket is found empty before its first datagram and after each datagram.
            self.assertEqual(gateway.stats("poll"), counted())
            first.sendto(conference(add(port_of(first)), add(port_of(second))), CONTROL)
            self.assertEqual(gateway.received(1, 0), counted(control=1, sent=1))
            for number, (one, other) in enumerate(frames, 1):
                first.sendto(spoken(number, one), ("127.0.0.1", FIRST + 2))
                second.sendto(spoken(number, other), ("127.0.0.1", FIRST + 4))
                counts = counted(control=1, media=2 * number, ticks=number - 1, sent=2 * number - 1)
                self.assertEqual(gateway.received(1, 2 * number), counts)
                gateway.tell("tick")
            counts = gateway.stats("tick", "tick")
            self.assertEqual(counts, counted(control=1, media=6, ticks=5, sent=11))
            self.assertEqual(gateway.finish("quit"), (0, "", ""))
            answer = f"{NAME}Reply=1{{Context=1{{{added(1, FIRST + 2)},{added(2, FIRST + 4)}}}}}"
            self.assertEqual(first.recvfrom(2000), (answer.encode(), CONTROL))
            # A frame waits for half of the play list's depth.
            heard = [(SILENCE, SILENCE)] * 2 + frames
            for place, (one, other) in enumerate(heard):
                self.assertEqual(second.recvfrom(2000), (sent(place, one, 2), ("127.0.0.1", FIRST + 4)))
                self.assertEqual(first.recvfrom(2000), (sent(place, other, 1), ("127.0.0.1", FIRST + 2)))
            self.assertEqual((waiting(first), waiting(second)), ([], []))

    def test_only_packets_that_cannot_be_sent_are_lost(self):
        # The system refuses the last address, because the socket is bound to a loopback address.
        lost = ("0.0.0.0", "224.0.0.1", "239.255.255.255", "240.0.0.0", "255.255.255.255", "192.0.2.1")
        with udp() as caller, Gateway("serve", *ports(0, 7)) as gateway:
            adds = [add(port_of(caller), "SendOnly", address) for address in (*lost, "127.0.0.1")]
            caller.sendto(conference(*adds), CONTROL)
            self.assertEqual(gateway.received(1, 0), counted(control=1, sent=1))
            self.assertEqual(gateway.stats("tick", "tick"), counted(control=1, ticks=2, sent=3, failed=12))
            caller.recv(4000)
            self.assertEqual([caller.recv(2000) for _ in range(2)], [sent(place, SILENCE, 7) for place in range(2)])
            self.assertEqual(waiting(caller), [])

    def test_messages_are_received_whole(self):
        answer, refusal = f"{NAME}Reply=1{{Context=-{{AuditValue=ROOT}}}}", f'{NAME}Error=501{{"not served"}}'
        with udp() as caller, Gateway("serve", *ports(0, 1)) as gateway:
            lengths = {2000: answer, 4001: answer, 8192: answer, 8193: refusal, 65507: refusal}
            for count, (length, wanted) in enumerate(lengths.items(), 1):
                caller.sendto(HEARTBEAT.ljust(length).encode(), CONTROL)
                self.assertEqual(gateway.received(count, 0), counted(control=count, sent=count))
                self.assertEqual(caller.recv(2000).decode(), wanted)


class BoundAddresses(Commands):
    def test_control_and_media(self):
        for bind, control, media in (
            ([], "127.0.0.2", "127.0.0.3"),
            (["--bind-address=127.0.0.4"], "127.0.0.4", "127.0.0.4"),
        ):
            words = [*ports(0, 1), "--address=127.0.0.3", "--control-address=127.0.0.2", *bind]
            # Other programs use the same ports of other addresses.
            with self.subTest(bind=bind), bound(FIRST, FIRST + 2), udp() as caller:
                for name in ("serve", "live"):
                    with Gateway(name, *words) as gateway:
                        self.check_addresses(gateway, name, caller, (control, FIRST), (media, FIRST + 2))

    def check_addresses(self, gateway, name, caller, control, media):
        """The gateway uses these addresses, and its answers name the addresses of its options."""
        caller.sendto(conference(add(port_of(caller))), control)
        caller.sendto(spoken(1, SILENCE), media)
        if name == "serve":
            self.assertEqual(gateway.received(1, 1), counted(control=1, media=1, sent=1))
            gateway.tell("tick")
        answer = f"MEGACO/1 [127.0.0.2]:{FIRST}\nReply=1{{Context=1{{{added(1, FIRST + 2, '127.0.0.3')}}}}}"
        self.assertEqual(caller.recvfrom(2000), (answer.encode(), control))
        packet, source = caller.recvfrom(2000)
        self.assertEqual((len(packet), source), (172, media))


class Controllers(Commands):
    def test_only_listed_ones_are_answered(self):
        heartbeat = HEARTBEAT.encode()
        for words, wanted in (([], 3), (["--controller=127.0.0.3", "--controller=127.0.0.2"], 0)):
            for name in ("serve", "live"):
                with self.subTest(name, words=words), udp() as stranger, udp("127.0.0.2") as controller:
                    with Gateway(name, *ports(0, 1), *words) as gateway:
                        for caller in (stranger, controller, stranger, stranger, controller):
                            caller.sendto(heartbeat, CONTROL)
                        if name == "serve":
                            count = 2 + wanted
                            self.assertEqual(gateway.received(count, 0), counted(control=count, sent=count))
                        # The messages are read in order, so the stranger's come before the controller's last one.
                        answers = [it.recv(2000) for it in (controller, controller, *[stranger] * wanted)]
                        self.assertEqual(answers, [answers[0]] * (2 + wanted))
                        self.assertEqual(waiting(stranger), [])
