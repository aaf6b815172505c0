"""A moderator's hour on the page, by keyboard alone, in Chromium: at 1280 and 390 pixels, light and dark. Then a room
of 64 whose members change 60 times a second. The page also has to show names that reverse or hide text, and a gateway's
restart.

usage: page.py [FOLDER], for screenshots
It needs the Debian packages chromium, chromium-driver, python3-selenium and, for screenshots, python3-pil, and Debian's
python3.
"""
import io
import sys
import threading
import time
from concurrent.futures import ThreadPoolExecutor

from selenium import webdriver
from selenium.webdriver.chrome.options import Options
from selenium.webdriver.chrome.service import Service
from selenium.webdriver.common.action_chains import ActionChains
from selenium.webdriver.common.keys import Keys

from lobby import TOKEN, Lobby, Phone, Phones, check, finish, spread, until
from loopback import end_on_signals

FOCUS = """const it = document.activeElement;
return it.getAttribute("aria-label") || it.closest("label")?.innerText || it.innerText || "";"""
# The lowest contrast between a text and its background, and that text (WCAG 2, 1.4.3).
CONTRAST = """const light = color => { const [r, g, b] = color.match(/[0-9.]+/g).slice(0, 3).map(it => it / 255)
  .map(it => it <= 0.04045 ? it / 12.92 : ((it + 0.055) / 1.055) ** 2.4); return 0.2126 * r + 0.7152 * g + 0.0722 * b; };
const behind = it => { for (; it; it = it.parentElement) { const color = getComputedStyle(it).backgroundColor;
  if (!/, 0\\)|transparent/.test(color)) return color; } return "rgb(255, 255, 255)"; };
document.getAnimations().forEach(it => it.finish());
return [...document.querySelectorAll("body *")].filter(it => it.checkVisibility() && [...it.childNodes].some(
  child => child.nodeType === 3 && child.data.trim())).map(it => { const [a, b] = [light(getComputedStyle(it).color), light(behind(it))]
  .sort((a, b) => b - a); return [(a + 0.05) / (b + 0.05), it.textContent.trim().slice(0, 40)]; }).sort((a, b) => a[0] - b[0])[0];"""
# How long the page was busy without a break, and each gap between two frames, in ms.
BUSY = """window.tasks = []; window.frames_ = []; new PerformanceObserver(list => tasks.push(...list.getEntries().map(it => it.duration)))
  .observe({ type: "longtask" }); let last = performance.now();
(function frame() { const now = performance.now(); frames_.push(now - last); last = now; requestAnimationFrame(frame); })();"""


class Page:
    def __init__(self, lobby, width, scheme):
        options = Options()
        for word in ("--headless=new", "--no-sandbox", "--disable-gpu", "--window-size=1280,1100"):
            options.add_argument(word)
        self.driver = webdriver.Chrome(service=Service("/usr/bin/chromedriver"), options=options)
        self.lobby = lobby
        self.driver.execute_cdp_cmd("Emulation.setDeviceMetricsOverride", {"width": width, "height": 1100, "deviceScaleFactor": 1, "mobile": width < 600})
        self.driver.execute_cdp_cmd("Emulation.setEmulatedMedia", {"features": [{"name": "prefers-color-scheme", "value": scheme}]})
        self.driver.get(f"http://127.0.0.1:{lobby.http}/")
        self.reach("Token")
        self.keys(TOKEN, Keys.ENTER)

    def keys(self, *keys):
        ActionChains(self.driver).send_keys(*keys).perform()

    def focus(self):
        return self.driver.execute_script(FOCUS).replace("\u2068", "").replace("\u2069", "").strip()

    def reach(self, text):
        """Moves the focus to an element by Tab alone."""
        for _ in range(300):
            if self.focus().startswith(text):
                return
            self.keys(Keys.TAB)
        raise AssertionError(f"Tab doesn't reach {text}")

    def press(self, text, *keys):
        self.reach(text)
        self.keys(*(keys or (Keys.ENTER,)))

    def text(self):
        return self.driver.find_element("tag name", "body").text.replace("\u2068", "").replace("\u2069", "")

    def shown(self, text):
        return text in self.text()

    def sideways(self):
        """Whether the page is wider than the window."""
        return self.driver.execute_script("return Math.max(...[...document.querySelectorAll('body *')].map(it => it.getBoundingClientRect().right)) > document.documentElement.clientWidth + 1;")


class Loop(Phones):
    """Phones that a thread serves. The thread also makes their calls."""

    def __init__(self, phones):
        super().__init__(phones)
        self.calling, self.ended = [], False
        threading.Thread(target=lambda: self.run(1e9, self.work), daemon=True).start()

    def work(self):
        while self.calling:
            self.calling.pop(0).call()
        return self.ended


def picture(page, name):
    """Saves a screenshot in few colors, so that the file is small."""
    if len(sys.argv) > 1:
        from PIL import Image
        shot = Image.open(io.BytesIO(page.driver.get_screenshot_as_png())).convert("RGB")
        shot.quantize(256).save(f"{sys.argv[1]}/{name}.png", optimize=True)


def hour(lobby, width, scheme):
    """Creates a room, lets callers in, sets roles, isolates, mutes all, moves, undoes, locks, sets rules, and ends the
    room."""
    what = f"{width} pixels, {scheme}"
    page = Page(lobby, width, scheme)
    loop = Loop(Phone(lobby, "sales", pitch, 4000) for pitch in (400, 1000, 1600))
    for phone, name in zip(loop.phones, ("Ann", "Bob", "Carol")):
        phone.name = name

    def member(phone):
        return lobby.members("sales").get(phone.name) or lobby.members("break").get(phone.name) or {}

    def seen(step, holds, shown=()):
        took = until(lambda: holds() and all(page.shown(text) for text in shown), 15)
        check(f"{what}: {step}" + ("" if took is not None else f", {page.text()!r}"), took is not None)

    try:
        page.press("New room")
        page.press("Name", "sales")
        page.press("Rules", "coaching")
        page.press("Callers wait", Keys.SPACE)
        page.press("Create")
        seen("a room is created", lambda: "sales" in lobby.ask("GET", "/rooms")["rooms"], ["Room sales", "callers wait at the door", "role coach is not heard by role customer"])
        page.press("Invite by a link")
        page.press("Name", "Dora")
        page.reach("Role")
        page.keys("agent", Keys.ENTER)
        seen("a link is made, and shown", lambda: page.focus() == "Link for Dora", ["Made a link for Dora"])
        page.press("Invite by a link")
        loop.calling += loop.phones
        first, second, third = loop.phones
        seen("three wait", lambda: len(lobby.members("sales")) == 3, [f"{phone.name}" for phone in loop.phones] + ["waits at the door"])
        for phone, role in zip(loop.phones, ("customer", "agent", "coach")):
            page.press(f"Role of {phone.name}", role, Keys.ENTER)
            seen(f"{role} is let in", lambda: (member(phone).get("role"), member(phone).get("waiting")) == (role, False), [f"Let in as {role}"])
        seen("the customer hears only the agent", lambda: len(lobby.ask("GET", "/rooms/sales")["flows"]) == 5, ["heard by 1 of 2, hears 2"])
        page.press(f"Isolate {first.name}")
        seen("one is isolated", lambda: member(first)["isolated"], ["isolated", "heard by 0 of 2, hears 0"])
        page.press("Undo")
        seen("isolation is undone", lambda: not member(first)["isolated"])
        page.press("Mute all")
        seen("all are muted", lambda: all(member(phone)["muted"] for phone in loop.phones), ["Muted all (3)"])
        page.press("Undo")
        seen("muting is undone", lambda: not any(member(phone)["muted"] for phone in loop.phones))
        page.press("Of role", "coach")
        page.press("Isolate role")
        seen("a role is isolated", lambda: (member(third)["isolated"], member(second)["isolated"]) == (True, False), ["Isolated all of role coach (1)"])
        page.press("Undo")
        seen("that is undone", lambda: not member(third)["isolated"])
        page.reach(f"Mute {second.name}")
        page.press("More")
        page.press(f"Room to which {second.name}", "break", Keys.ENTER)
        seen("one is moved", lambda: second.name in lobby.members("break"), ["Moved to break"])
        page.press("Undo")
        seen("the move is undone", lambda: second.name in lobby.members("sales"))
        page.press("Lock")
        seen("the room is locked", lambda: lobby.ask("GET", "/rooms/sales")["locked"], ["locked", "Unlock"])
        page.press("Undo")
        seen("it is unlocked", lambda: not lobby.ask("GET", "/rooms/sales")["locked"])
        page.press("Talker", "everyone")
        page.press("Add rule")
        seen("nobody hears anybody by a new rule", lambda: lobby.ask("GET", "/rooms/sales")["flows"] == [], ["everyone is not heard by everyone"])
        page.press("Undo")
        seen("the rule is removed", lambda: len(lobby.ask("GET", "/rooms/sales")["flows"]) == 5)
        page.press("Who hears whom", Keys.ARROW_RIGHT)
        seen("a pair is named", lambda: True, [f"{first.name} hears {second.name}"])
        page.press("Search", third.name)
        seen("one is found", lambda: len([it for it in page.driver.find_elements("css selector", "#people > li") if it.is_displayed()]) == 1)
        page.keys(*[Keys.BACKSPACE] * len(third.name))
        lowest, text = page.driver.execute_script(CONTRAST)
        check(f"{what}: the lowest contrast is {lowest:.1f} ({text})", lowest >= 4.5)
        check(f"{what}: the page isn't wider than the window", not page.sideways())
        page.driver.execute_script("scrollTo(0, 0)")
        time.sleep(2.2)
        picture(page, f"page-{width}-{scheme}")
        page.press("End")
        page.press("OK")
        seen("the room is ended", lambda: lobby.ask("GET", "/rooms")["rooms"] == [], ["Nobody has called yet."])
    finally:
        loop.ended = True
        page.driver.quit()


def crowd(lobby):
    """64 members who are muted and unmuted 60 times a second, while one is isolated by keyboard."""
    loop = Loop(Phone(lobby, "100", 400 + 50 * n) for n in range(64))
    for phone in loop.phones:
        loop.calling.append(phone)
        until(lambda: phone.state == "talking")
    last = loop.phones[-1].name
    ids = [member["id"] for name, member in lobby.members("100").items() if name != last]
    page = Page(lobby, 1280, "light")
    going = True

    def change(first):
        for n in range(first, 100000, 12):
            if not going:
                return
            start = time.monotonic()
            lobby.ask("POST", f"/members/{ids[n % 63]}/{'mute' if n // 63 % 2 == 0 else 'unmute'}")
            count.append(start)
            time.sleep(max(0, 0.2 - (time.monotonic() - start)))

    try:
        check("64 are shown", until(lambda: len(page.driver.find_elements("css selector", "#people > li")) == 64, 20) is not None)
        page.driver.execute_script(BUSY)
        count, times = [], []
        with ThreadPoolExecutor(12) as pool:
            for n in range(12):
                pool.submit(change, n)
            try:
                page.press("Search", last)
                page.reach(f"Isolate {last}")
                start = time.monotonic()
                for n in range(10):
                    page.keys(Keys.ENTER)
                    pressed = time.monotonic()
                    word = "Release" if n % 2 == 0 else "Isolate"
                    until(lambda: page.focus().startswith(word), 10)
                    times.append(time.monotonic() - pressed)
                seconds = time.monotonic() - start
                rate = len([at for at in count if at > start]) / seconds
            finally:
                going = False
        tasks, frames = page.driver.execute_script("return [tasks, frames_];")
        print(f"64 members, {rate:.0f} changes a second: a key until the page shows what it did: {spread(times)}; "
              f"the page was busy for {max(tasks, default=0):.0f} ms at most; {sorted(frames)[len(frames) * 99 // 100]:.0f} ms between frames at 99 %")
        check("the page isn't wider than the window", not page.sideways())
        picture(page, "page-64")
        page.driver.execute_cdp_cmd("Emulation.setDeviceMetricsOverride", {"width": 390, "height": 1100, "deviceScaleFactor": 1, "mobile": True})
        check("nor with 390 pixels", until(lambda: not page.sideways(), 5) is not None)
        lobby.gateways[0].kill()
        check("a killed gateway is awaited", until(lambda: page.shown("Gateway g0: away"), 15) is not None)
        lobby.gateways[0].start()
        check("it came back", until(lambda: page.shown("Gateway g0: serving"), 15) is not None)
    finally:
        loop.ended = True
        page.driver.quit()


def names(lobby):
    """Checks how the page shows names that callers give themselves."""
    page = Page(lobby, 1280, "light")
    try:
        shown = page.driver.execute_script("return arguments[0].map(shown);", [
            "Ann", "a\u202eb", "a\u200bb", "\u2066a", "a\nb", "a\u3164b", "x" + "\u0301" * 9, "\u05d0\u05d1", "<b>a</b>", "y" * 100, "\U000e0041a"])
        wanted = ["Ann", "a<202E>b", "a<200B>b", "<2066>a", "a<A>b", "a<3164>b", "x\u0301\u0301…", "\u05d0\u05d1", "<b>a</b>", "y" * 59 + "…", "<E0041>a"]
        check(f"names: {shown}", shown == [name if name.isascii() else f"\u2068{name}\u2069" for name in wanted])
    finally:
        page.driver.quit()


def main():
    end_on_signals()
    with Lobby(rtpengine="{{127,0,0,1},9}") as lobby:
        names(lobby)
        for width in (1280, 390):
            for scheme in ("light", "dark"):
                hour(lobby, width, scheme)
    with Lobby(journal=True, returns=5000) as lobby:
        crowd(lobby)
    finish()


main()
