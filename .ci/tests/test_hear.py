"""demo/hear, on a machine that is too busy."""
import contextlib
import importlib.machinery
import importlib.util
import io
import struct
import tempfile
import unittest
from pathlib import Path
from unittest import mock

HEAR = Path(__file__).resolve().parents[2] / "demo/hear"


def module():
    """demo/hear as a module."""
    loader = importlib.machinery.SourceFileLoader("hear", str(HEAR))
    made = importlib.util.module_from_spec(importlib.util.spec_from_loader("hear", loader))
    loader.exec_module(made)
    return made


class Hear(unittest.TestCase):
    def test_a_busy_machine(self):
        """A run that can't be judged is repeated once, and no more."""
        busy, right, wrong = (3, "busy."), (0, "right."), (1, "wrong.")
        for attempts, status in (([right], 0), ([wrong], 1), ([busy, right], 0), ([busy, wrong], 1), ([busy, busy], 3)):
            hear, left, said = module(), list(attempts), io.StringIO()
            hear.attempt = lambda given: left.pop(0)
            with self.subTest(attempts), tempfile.TemporaryDirectory() as folder, mock.patch("signal.signal"), \
                    mock.patch("sys.argv", ["hear", "--into", folder]), contextlib.redirect_stdout(said):
                with self.assertRaises(SystemExit) as ended:
                    hear.main()
                self.assertEqual((ended.exception.code, left), (status, []))
                self.assertEqual("busy. It is tried once again.\n" in said.getvalue(), len(attempts) == 2)

    def test_a_gateway_that_is_late(self):
        """The caller sends the missed packets at once, so that no packet is missing."""
        caller = module().Caller("agent")
        for tick, now in enumerate((0, 0.02, 0.04, 0.26)):
            self.assertLess(caller.lateness(), 0.001)
            with mock.patch("time.monotonic", return_value=now):
                caller.receive(struct.pack("!BBHII", 0x80, 0, tick, 160 * tick, 1) + bytes(160))
        self.assertAlmostEqual(caller.lateness(), 0.2)

    def test_verdicts(self):
        hear = module()
        heard = [{name: whom.split() for name, whom in wanted.items()} for _, wanted in hear.COMMANDS]
        noisy = [dict(row) for row in heard]
        noisy[2]["customer"] = ["agent at 3%"]
        leaking = [dict(row) for row in heard]
        leaking[2]["customer"] = ["agent"]
        for measured, busy, status in (
            (heard, "", 0), (heard, "late", 0), (noisy, "", 1), (noisy, "late", 3), (leaking, "", 1), (leaking, "late", 1),
        ):
            with self.subTest(status=status, busy=busy), contextlib.redirect_stdout(io.StringIO()):
                self.assertEqual(hear.verdict(*hear.shown(measured), busy)[0], status)
