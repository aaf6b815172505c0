"""lobby-status, with a fake controller."""
import http.server
import json
import shutil
import socket
import subprocess
import tempfile
import threading
import unittest
from pathlib import Path

STATUS = Path(__file__).resolve().parents[1] / "lobby-status"
TOKEN = "sixteen bytes or more"
CONFIG = """[{lobby, [
    {gateways, [#{name => <<"1">>, address => {{10, 0, 0, 10}, 2944}}, #{name => <<"2">>, address => {{10, 0, 0, 10}, 2946}}]},
    {sip, {{127, 0, 0, 1}, 5060}}, {http, {{127, 0, 0, 1}, %d}}, {tokens, [%s]}%s]}].
"""
METRICS = """# TYPE lobby_rooms gauge
lobby_rooms 3
# TYPE lobby_calls gauge
lobby_calls 12
# TYPE lobby_gateway_losses_total counter
lobby_gateway_losses_total{gateway="1"} 1
lobby_gateway_losses_total{gateway="2"} 2
lobby_gateway_fenced_total{gateway="2"} 1
lobby_set_aside_total 1
lobby_audit_lost_total 4
"""
# The part of a configuration that names the nodes of a pair.
PAIR = ", {pair, #{self => 'lobby@127.0.0.1', peer => 'lobby@127.0.0.2'}}"


class Controller(http.server.BaseHTTPRequestHandler):
    def do_GET(self):
        loads = [{"name": name, "terminations": 5, "max_terminations": 256, "contexts": 2, "max_contexts": 64, "draining": False}
                 | self.server.draining.get(name, {}) for name in self.server.serving]
        bodies = {"/gateways": json.dumps({"gateways": loads}), "/metrics": METRICS,
                  "/openapi.json": json.dumps({"info": {"version": "0.2.0"}})}
        known = self.headers["Authorization"] == f"Bearer {TOKEN}"
        body = bodies[self.path].encode()
        self.send_response(200 if known else 401)
        self.send_header("Content-Length", str(len(body)))
        self.end_headers()
        self.wfile.write(body)

    def log_message(self, *_):
        pass


@unittest.skipUnless(shutil.which("escript"), "erlang-base isn't installed")
class Status(unittest.TestCase):
    def setUp(self):
        self.server = http.server.ThreadingHTTPServer(("127.0.0.1", 0), Controller)
        self.server.serving, self.server.draining = ["1", "2"], {}
        threading.Thread(target=self.server.serve_forever, daemon=True).start()
        self.addCleanup(self.server.server_close)
        self.addCleanup(self.server.shutdown)

    def status(self, tokens=f'{{<<"{TOKEN}">>, viewer}}', more="", port=None):
        with tempfile.NamedTemporaryFile("w", suffix=".config") as file:
            file.write(CONFIG % (port or self.server.server_port, tokens, more))
            file.flush()
            done = subprocess.run([STATUS, file.name], stdin=subprocess.DEVNULL, stdout=subprocess.PIPE,
                                  stderr=subprocess.STDOUT, text=True)
        return done.stdout, done.returncode

    def test_all_is_well(self):
        self.assertEqual(self.status(), (
            "controller 0.2.0: 12 calls in 3 rooms\n"
            "gateway 1 at 10.0.0.10:2944: 5 of 256 terminations, 2 of 64 conferences\n"
            "gateway 2 at 10.0.0.10:2946: 5 of 256 terminations, 2 of 64 conferences\n"
            "failures: 3 losses of a gateway, 1 refusals of this controller's number, 1 rooms or calls set aside, "
            "4 lines of the audit log lost\n", 0))

    def test_a_viewers_token_is_used(self):
        """Tokens may have names."""
        viewer = f'{{<<"{TOKEN}">>, viewer, <<"night">>}}'
        for tokens in (viewer, f'{{<<"another token, unknown">>, operator, <<"Ann">>}}, {viewer}',
                       f'{viewer}, {{<<"another token, unknown">>, operator}}'):
            with self.subTest(tokens):
                self.assertEqual(self.status(tokens=tokens)[1], 0)

    def test_a_gateway_is_missing(self):
        self.server.serving = ["2"]
        said, status = self.status()
        self.assertIn("gateway 1 at 10.0.0.10:2944: NOT in service\n", said)
        self.assertEqual(status, 1)

    def test_draining(self):
        self.server.draining = {"1": {"draining": True}}
        said, status = self.status()
        self.assertIn("gateway 1 at 10.0.0.10:2944: 5 of 256 terminations, 2 of 64 conferences, being drained\n", said)
        self.assertEqual(status, 0)
        self.server.draining = {"1": {"draining": True, "terminations": 0, "contexts": 0}}
        said, status = self.status()
        self.assertIn("gateway 1 at 10.0.0.10:2944: drained, and NOT in service until POST /gateways/1/resume\n", said)
        self.assertEqual(status, 1)

    def test_a_pair(self):
        with socket.create_server(("127.0.0.1", 4370)):
            said, status = self.status(more=PAIR)
        self.assertEqual((said.splitlines()[-3:], status), ([
            "lease: this host has it", "node lobby@127.0.0.1: runs", "node lobby@127.0.0.2: DOESN'T answer"], 1))

    def test_what_cannot_be_asked(self):
        with socket.create_server(("127.0.0.1", 0)) as closed:
            port = closed.getsockname()[1]
        for arguments, text, status in (
            ({"tokens": ""}, "the configuration has no token", 2),
            ({"tokens": '{<<"another token, unknown">>, operator}'}, "doesn't know the token", 2),
            ({"port": port}, f"http://127.0.0.1:{port} doesn't answer: econnrefused", 3),
            ({"more": ", {gateways"}, "syntax error", 2),
        ):
            with self.subTest(text):
                said, found = self.status(**arguments)
                self.assertIn(text, said)
                self.assertEqual(found, status)


if __name__ == "__main__":
    unittest.main()
