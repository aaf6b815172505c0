"""Messages that create terminations, and RTP packets."""

# A frame of silence, as mu-law.
SILENCE = b"\xff" * 160


def description(address, port):
    """A session description for mu-law."""
    return f"v=0\nc=IN IP4 {address}\nm=audio {port} RTP/AVP 0\n"


def add(port, mode="SendReceive", address="127.0.0.1"):
    """An Add of a termination whose caller has this address and port."""
    local, remote = description("$", "$"), description(address, port)
    return f"Add=${{Media{{LocalControl{{Mode={mode}}},Local{{{local}}},Remote{{{remote}}}}}}}"


def request(number, actions):
    """A message with one request."""
    return f"MEGACO/1 [127.0.0.1]:2945 Transaction={number}{{{actions}}}".encode()


def conference(*adds):
    """A message that creates a conference."""
    return request(1, f"Context=${{{','.join(adds)}}}")


def added(number, port, address="127.0.0.1"):
    """The part of a reply for a new termination."""
    local = f"v=0\r\nc=IN IP4 {address}\r\nm=audio {port} RTP/AVP 0\r\na=ptime:20\r\n"
    return f"Add=RTP/{number}{{Media{{Stream=1{{Local{{{local}}}}}}}}}"


def header(number, timestamp, ssrc, marker=False):
    """The header of an RTP packet with mu-law."""
    numbers = number.to_bytes(2, "big") + timestamp.to_bytes(4, "big") + ssrc.to_bytes(4, "big")
    return bytes([0x80, 0x80 * marker]) + numbers


def spoken(number, payload, ssrc=99):
    """A caller's packet with this sequence number."""
    return header(number, 160 * number, ssrc) + payload


def sent(place, payload, ssrc):
    """The packet that a gateway sends in a termination's tick, counted from 0, if its numbers start from 0."""
    return header(place, 160 * place, ssrc, marker=place == 0) + payload
