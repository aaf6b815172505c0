"""People join by links from headless Chromium, through rtpengine, into a room with two plain SIP phones. Each plays a
tone. The trial finds out who hears whom from each packet to the phones, and from each 10 ms that Chromium plays. Ten
people are in the room while rtpengine, a gateway and the controller are killed. Then UDP is blocked, and a TURN server
helps.

It needs root, its own network namespace, the Debian packages rtpengine-daemon, chromium, chromium-driver,
python3-selenium, coturn and iptables, and Debian's python3.
"""
import math
import statistics
import subprocess
import threading
import time
import urllib.error
import wave

from selenium import webdriver
from selenium.webdriver.chrome.options import Options
from selenium.webdriver.chrome.service import Service
from selenium.webdriver.common.action_chains import ActionChains
from selenium.webdriver.common.keys import Keys

from lobby import Gateway, Lobby, Phone, Phones, Relay, check, finish, free_addresses, loudness, until
from loopback import end_on_signals

FIRST, SECOND, COACH, CUSTOMER, GUEST = PITCHES = (400, 1600, 1000, 2200, 2800)
# Runs before the page's own scripts. It turns off the processing of the microphone's sound, which would take a tone for
# noise, and measures what is played.
PROBE = """window.heard = []; window.marks = {};
const now = () => performance.timeOrigin + performance.now();
let latest = 0;
const listen = track => {
  const mine = ++latest;
  const context = new AudioContext({ sampleRate: 48000 }), analyser = new AnalyserNode(context, { fftSize: 2048, smoothingTimeConstant: 0 });
  const bins = new Float32Array(1024);
  context.createMediaStreamSource(new MediaStream([track])).connect(analyser);
  setInterval(() => { if (mine !== latest) return; analyser.getFloatFrequencyData(bins);
    heard.push([now(), ...PITCHES.map(pitch => { const at = Math.round(pitch * 2048 / 48000); return Math.max(...bins.slice(at - 1, at + 2)); })]); }, 10);
};
const open = navigator.mediaDevices.getUserMedia.bind(navigator.mediaDevices);
navigator.mediaDevices.getUserMedia = () => window.denied ? Promise.reject(new DOMException("", "NotAllowedError"))
  : open({ audio: { echoCancellation: false, noiseSuppression: false, autoGainControl: false } });
window.RTCPeerConnection = class extends RTCPeerConnection {
  constructor(...all) { super(...all); window.last = this; this.addEventListener("track", event => listen(event.track)); }
};
addEventListener("click", () => marks.click ??= now(), true);"""


class Browser:
    """A tab that plays a tone."""

    def __init__(self, lobby, pitch, amplitude=8000):
        self.lobby, self.pitch = lobby, pitch
        path = lobby.folder / f"{pitch}.wav"
        with wave.open(str(path), "wb") as out:
            out.setparams((1, 2, 48000, 0, "NONE", ""))
            out.writeframes(b"".join(round(amplitude * math.sin(2 * math.pi * pitch * n / 48000)).to_bytes(2, "little", signed=True) for n in range(480000)))
        options = Options()
        for word in ("--headless=new", "--no-sandbox", "--disable-gpu", "--use-fake-ui-for-media-stream", "--use-fake-device-for-media-stream",
                     f"--use-file-for-fake-audio-capture={path}", "--autoplay-policy=no-user-gesture-required",
                     "--allow-loopback-in-peer-connection", "--disable-background-timer-throttling",
                     "--disable-renderer-backgrounding", "--disable-backgrounding-occluded-windows"):
            options.add_argument(word)
        self.driver = webdriver.Chrome(service=Service("/usr/bin/chromedriver"), options=options)
        self.driver.execute_cdp_cmd("Page.addScriptToEvaluateOnNewDocument", {"source": f"const PITCHES = {list(PITCHES)};{PROBE}"})

    def value(self, expression):
        return self.driver.execute_script(f"return {expression};")

    def text(self):
        return self.driver.find_element("tag name", "body").text.replace("\u2068", "").replace("\u2069", "")

    def opens(self, token):
        for url in ("about:blank", f"http://127.0.0.1:{self.lobby.http}/join#{token}"):
            self.driver.get(url)

    def keys(self, *keys):
        ActionChains(self.driver).send_keys(*keys).perform()

    def press(self, name):
        self.driver.find_element("id", name).click()

    def says(self, text, limit=20):
        """Whether the page says this in time."""
        return until(lambda: text in self.text(), limit) is not None

    def hears(self, seconds):
        """The pitches in more than half of the measurements of the last seconds. A gap, which a busy machine causes,
        has all pitches for a moment."""
        rows = self.value(f"heard.filter(row => row[0] > {1000 * (time.time() - seconds)})")
        return {pitch for n, pitch in enumerate(PITCHES) if 2 * sum((row[n + 1] or -999) > -60 for row in rows) > len(rows) > 3}


def phone_hears(phone, since, packets=3, level=100):
    """The pitches in this many packets in a row. Each tone is louder than 2000; a gap in one has all pitches for a
    moment."""
    heard = [payload for at, payload in phone.heard[:] if at >= since]
    return {pitch for pitch in PITCHES if "x" * packets in "".join(" x"[loudness(payload, pitch) > level] for payload in heard)}


class Symmetric(Gateway):
    """All browsers' media come from one address."""

    def options(self):
        return ["--symmetric-rtp"]


class Site(Lobby):
    def gateway(self, number, slots, journal):
        return Symmetric(self.folder, f"g{number}", slots, journal)


def block(action):
    """Drops UDP from the browsers to rtpengine, with -I, or lets it pass, with -D."""
    subprocess.run(["iptables", action, "INPUT", "-p", "udp", "-s", "127.0.0.1", "-d", "127.0.0.2", "-j", "DROP"], check=True)


def turn_server(folder):
    return subprocess.Popen(
        ["turnserver", "-n", "--listening-ip=127.0.0.3", "--relay-ip=127.0.0.3", "--user=a:b", "--realm=trial", "--lt-cred-mech", "--no-tls",
         "--no-dtls", "--no-cli", "--allow-loopback-peers", f"--pidfile={folder}/turn.pid", f"--log-file={folder}/turn.log", "--simple-log"],
        stdin=subprocess.DEVNULL, stdout=subprocess.DEVNULL, stderr=subprocess.DEVNULL)


class Tabs:
    """More people, as tabs of a browser that plays a tone."""

    def __init__(self, browser, tokens):
        self.browser, self.tabs = browser, []
        for token in tokens:
            browser.driver.switch_to.new_window("tab")
            browser.driver.execute_cdp_cmd("Page.addScriptToEvaluateOnNewDocument", {"source": f"const PITCHES = {list(PITCHES)};{PROBE}"})
            browser.opens(token)
            browser.press("join")
            self.tabs.append(browser.driver.current_window_handle)

    def each(self, see):
        seen = []
        for tab in self.tabs:
            self.browser.driver.switch_to.window(tab)
            seen.append(see(self.browser))
        return seen

    def check(self, what):
        took = until(lambda: all(self.each(lambda it: "You are in the room." in it.text())), 40)
        time.sleep(2)
        heard = self.each(lambda it: it.hears(1))
        check(f"{what}: {len(heard)} more people are in the room after {took} s, and hear {heard}",
              took is not None and all(FIRST in pitches and SECOND not in pitches for pitches in heard))


def trial(lobby, relay, coach, customer, more):
    loop = Phones(Phone(lobby, "100", pitch, 4000) for pitch in (FIRST, SECOND))
    loop.call()
    threading.Thread(target=lambda: loop.run(1e9), daemon=True).start()
    first, second = loop.phones

    def link(name, role, seconds=600):
        return lobby.ask("POST", "/links", {"room": "100", "name": name, "role": role, "seconds": seconds})

    def act(name, action, body=None):
        lobby.ask("POST", f"/members/{lobby.members('100')[name]['id']}/{action}", body)

    def expect(what, wanted, settle=0.5):
        time.sleep(settle)
        start = time.monotonic()
        time.sleep(1.5)
        seen = {phone.pitch: phone_hears(phone, start) for phone in loop.phones} | {it.pitch: it.hears(1.5) for it in (coach, customer)}
        check(f"{what}: {seen}", seen == wanted)
        return start

    links = {"coach": link("coach", "coach"), "customer": link("customer", "customer")}
    coach.opens(links["coach"]["link"])
    check("the page says who joins where", coach.says("Room 100, as coach"))
    customer.opens(links["customer"]["link"])
    for browser in (coach, customer):
        browser.keys(Keys.TAB, Keys.ENTER)
        check("you are in the room, by keyboard", browser.says("You are in the room."))
    four = set(PITCHES) - {GUEST}
    every = {pitch: four - {pitch} for pitch in four}
    expect("all hear all", every, 2)
    times = [coach.value("heard.find(row => Math.max(row[1], row[2]) > -60)[0] - marks.click")]
    lobby.ask("PUT", "/rooms/100", {"preset": "coaching"})
    coached = {**every, CUSTOMER: {FIRST, SECOND}}
    expect("the customer doesn't hear the coach", coached)
    at = time.monotonic()
    act("coach", "isolate")
    answered = time.monotonic() - at
    time.sleep(0.3)
    last = max([when - at for phone in loop.phones for when, it in phone.heard[:] if loudness(it, COACH) > 100])
    print(f"isolated: answered after {1000 * answered:.1f} ms; the last packet with his tone was sent to a phone at {1000 * last:.0f} ms")
    alone = {FIRST: {SECOND, CUSTOMER}, SECOND: {FIRST, CUSTOMER}, COACH: set(), CUSTOMER: {FIRST, SECOND}}
    start = expect("the coach is isolated", alone)
    check("no packet to the phones has his tone", all(COACH not in phone_hears(phone, start, 1, 1000) for phone in loop.phones))
    check("the page doesn't say that he is isolated", "isolated" not in coach.text())
    coach.opens(links["coach"]["link"])
    coach.press("join")
    coach.says("You are in the room.")
    expect("he joins again, and is isolated", alone)
    act("coach", "release")
    expect("released", coached)
    customer.keys(Keys.ENTER)
    expect("the customer mutes himself, by keyboard", {pitch: hears - {CUSTOMER} for pitch, hears in coached.items()})
    customer.keys(Keys.ENTER)
    for n in range(6):
        coach.opens(links["coach"]["link"])
        coach.press("join")
        until(lambda: coach.value("heard.some(row => Math.max(row[1], row[2]) > -60)"), 10)
        times.append(coach.value("heard.find(row => Math.max(row[1], row[2]) > -60)[0] - marks.click"))
    print(f"from the click until he hears: {statistics.median(times):.0f} ms at the median, {max(times):.0f} at most, of {len(times)}")
    expect("all as before", coached, 1)
    # Failures. The customer must never hear the coach.
    act(second.name, "isolate")
    quiet = {FIRST: {COACH, CUSTOMER}, SECOND: set(), COACH: {FIRST, CUSTOMER}, CUSTOMER: {FIRST}}
    since = expect("a phone is isolated", quiet)
    tabs = Tabs(more, [link(f"guest{n}", "member")["link"] for n in range(8)])
    tabs.check("before the failures")
    quiet = {FIRST: {COACH, CUSTOMER, GUEST}, SECOND: set(), COACH: {FIRST, CUSTOMER, GUEST}, CUSTOMER: {FIRST, GUEST}}
    relay.kill()
    relay.start()
    time.sleep(2)
    heard = 2 + until(lambda: customer.hears(0.3) >= {FIRST} and coach.hears(0.3) >= {FIRST, CUSTOMER}, 30)
    print(f"rtpengine is killed and started: both browsers hear again after {heard:.1f} s")
    tabs.check("after rtpengine's restart")
    expect("after rtpengine's restart", quiet)
    gateway = lobby.gateways[int(lobby.ask("GET", "/rooms/100")["gateway"][1:])]
    gateway.kill()
    time.sleep(0.3)
    heard = 0.3 + until(lambda: customer.hears(0.2) >= {FIRST}, 30)
    print(f"a gateway is killed: the customer hears again after {heard:.1f} s")
    tabs.check("on the other gateway")
    expect("on the other gateway", quiet)
    gateway.start()
    lobby.process.kill()
    lobby.process.wait()
    lobby.start()
    until(lambda: len(lobby.members("100")) == 12)
    tabs.check("the controller is killed and started")
    expect("the controller is killed and started", quiet)
    check("no packet to the other phone has the isolated phone's tone", SECOND not in phone_hears(first, since, 1, 1000))
    # The network.
    block("-I")
    time.sleep(8)
    block("-D")
    heard = until(lambda: customer.hears(0.3) >= {FIRST}, 60)
    print(f"a network is away for 8 s: the customer hears again {heard:.1f} s later")
    check("the page says so", customer.says("You are in the room."))
    block("-I")
    coach.opens(links["coach"]["link"])
    coach.press("join")
    check("UDP is blocked: the page says so", coach.says("No way for the sound was found: a firewall may block UDP.", 30))
    turn = turn_server(lobby.folder)
    try:
        time.sleep(1)
        coach.press("join")
        check("he joins over TCP, by TURN", coach.says("You are in the room.", 30) and until(lambda: FIRST in coach.hears(0.5), 10) is not None)
        check("the isolated phone isn't heard", SECOND not in coach.hears(0.5))
    finally:
        block("-D")
    coach.opens(links["coach"]["link"])
    coach.press("join")
    check("he joins again, over UDP", coach.says("You are in the room."))
    turn.kill()
    turn.wait()
    act("coach", "hang_up", {"revoke": True})
    check("hung up: the page says so", coach.says("You are no longer in the room.") or coach.says("The link has been revoked.", 1))
    coach.opens(links["coach"]["link"])
    check("a revoked link", coach.says("The link has been revoked."))
    late = link("late", "member", 1)["link"]
    time.sleep(1.2)
    coach.opens(late)
    check("an expired link", coach.says("The link has expired."))
    lobby.ask("POST", "/rooms/100/lock")
    coach.opens(link("late", "member")["link"])
    coach.press("join")
    check("a locked room", coach.says("The room is locked."))
    coach.opens(link("late", "member")["link"])
    coach.driver.execute_script("window.denied = true")
    coach.press("join")
    check("no microphone", coach.says("The browser isn't allowed to use a microphone."))
    customer.keys(Keys.TAB, Keys.ENTER)
    check("he hangs up", until(lambda: "customer" not in lobby.members("100"), 5) is not None)


def main():
    end_on_signals()
    port, = free_addresses(1)
    turn = '[#{urls => <<"turn:127.0.0.3:3478?transport=tcp">>, username => <<"a">>, credential => <<"b">>}]'
    with Site(gateways=2, store="disc", rtpengine=f"{{{{127,0,0,1}},{port}}}", ice_servers=turn) as lobby:
        relay = Relay(lobby.folder, port)
        browsers = []
        try:
            browsers += [Browser(lobby, COACH), Browser(lobby, CUSTOMER), Browser(lobby, GUEST, 1000)]
            until(lambda: lobby.ask("GET", "/gateways")["rtpengine"] == "serving")
            trial(lobby, relay, *browsers)
        finally:
            relay.kill()
            for browser in browsers:
                browser.driver.quit()
    finish()


main()
