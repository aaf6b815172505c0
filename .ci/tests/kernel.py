"""System calls of a program under test: counted, slowed down, or made to fail."""
import ctypes
import errno
import fcntl
import os
import select
import socket
import struct
import threading
from dataclasses import dataclass

# The numbers of system calls on x86-64.
NUMBERS = {
    "write": 1, "stat": 4, "sendto": 44, "recvfrom": 45, "fsync": 74, "fdatasync": 75, "rename": 82, "link": 86,
    "epoll_wait": 232, "newfstatat": 262, "epoll_pwait": 281, "statx": 332,
}
NO_NEW_PRIVILEGES, SECCOMP, FILTER, WITH_LISTENER = 38, 317, 1, 8
ALLOW, ASK = 0x7FFF0000, 0x7FC00000
RECEIVE, ANSWER, GO_ON = 0xC0502100, 0xC0182101, 1
LIBC = ctypes.CDLL(None, use_errno=True)


@dataclass
class Call:
    """A system call: the process that made it, its name, how many of this name have been made, this one included, and its
    arguments."""

    process: int
    name: str
    count: int
    arguments: tuple

    def file(self):
        """The path of the file whose descriptor is the first argument."""
        return os.readlink(f"/proc/{self.process}/fd/{self.arguments[0]}")


def program_of(numbers):
    """A filter that asks about these system calls, and allows all others."""
    load = [(0x20, 0, 0, 0)]
    compare = [(0x15, len(numbers) - place, 0, number) for place, number in enumerate(numbers)]
    decide = [(0x06, 0, 0, ALLOW), (0x06, 0, 0, ASK)]
    return b"".join(struct.pack("HBBI", *it) for it in load + compare + decide)


class Kernel:
    """What a program gets in place of the system, until the end of the `with` block.

    `decide` is called with each `Call` that has one of the names. It returns the number of the error with which the
    call fails, or `None` if the system is to do it. Meanwhile, the program waits."""

    def __init__(self, names, decide=lambda call: None):
        self.names = {NUMBERS[name]: name for name in names}
        self.decide, self.made = decide, dict.fromkeys(names, 0)
        self.near, self.far = socket.socketpair()

    def install(self):
        """Called in the new process before it runs the program."""
        filter_program = program_of(list(self.names))
        code = ctypes.create_string_buffer(filter_program)
        argument = struct.pack("HxxxxxxQ", len(filter_program) // 8, ctypes.addressof(code))
        LIBC.prctl(NO_NEW_PRIVILEGES, 1, 0, 0, 0)
        listener = LIBC.syscall(SECCOMP, FILTER, WITH_LISTENER, argument)
        if listener < 0:
            raise OSError(ctypes.get_errno(), "no filter for system calls")
        socket.send_fds(self.far, [b"."], [listener])
        os.close(listener)

    def answer(self, listener):
        """Waits for a call, and says what becomes of it."""
        asked = bytearray(80)
        fcntl.ioctl(listener, RECEIVE, asked)
        identity, process, number = struct.unpack_from("QI4xi", asked)
        name = self.names[number]
        self.made[name] += 1
        error = self.decide(Call(process, name, self.made[name], struct.unpack_from("6Q", asked, 32)))
        fcntl.ioctl(listener, ANSWER, struct.pack("QqiI", identity, 0, -(error or 0), 0 if error else GO_ON))

    def listen(self):
        """Answers until the program ends."""
        _, [listener], _, _ = socket.recv_fds(self.near, 1, 1)
        asked = select.poll()
        asked.register(listener, select.POLLIN)
        while asked.poll() == [(listener, select.POLLIN)]:
            try:
                self.answer(listener)
            except OSError as fault:
                # The program was interrupted, or has ended.
                if fault.errno != errno.ENOENT:
                    raise
        os.close(listener)

    def __enter__(self):
        threading.Thread(target=self.listen, daemon=True).start()
        return self

    def __exit__(self, *_):
        self.near.close()
        self.far.close()
