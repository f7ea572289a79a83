"""How the page behaves: no connection, no markup of others, hostile files, contrast, names, a narrow window."""
import base64
import os
import re
import socketserver
import subprocess
import threading
from pathlib import Path
from typing import Any

from asking import example, image
from browsing import Browser
from desks import START, TOP

TRIES = """
const url = arguments[0], done = arguments[1];
const image = new Promise(end => { const it = new Image(); it.onload = () => end(true); it.onerror = () => end(false); it.src = url + 'image'; });
const sheet = document.createElement('link'); sheet.rel = 'stylesheet'; sheet.href = url + 'sheet'; document.head.append(sheet);
const script = document.createElement('script'); script.src = url + 'script'; document.head.append(script);
const socket = new Promise(end => { try { const it = new WebSocket(url.replace('http', 'ws')); it.onopen = () => end(true); it.onerror = () => end(false); }
    catch { end(false); } });
const events = new Promise(end => { try { const it = new EventSource(url + 'events'); it.onopen = () => end(true); it.onerror = () => { it.close(); end(false); }; }
    catch { end(false); } });
Promise.all([fetch(url + 'fetch').then(() => true, () => false), image, socket, events,
    new Promise(end => { const it = new XMLHttpRequest(); it.onload = () => end(true); it.onerror = () => end(false); it.open('GET', url + 'xhr'); it.send(); })])
    .then(all => { navigator.sendBeacon(url + 'beacon', 'x'); setTimeout(() => done(all), 300); });
"""
LEAVES = """
const url = arguments[0], done = arguments[1];
const frame = document.createElement('iframe'); frame.src = url + 'frame'; document.body.append(frame);
const form = document.createElement('form'); form.action = url + 'form'; form.target = '_blank'; document.body.append(form);
try { form.submit(); } catch { }
setTimeout(() => done(true), 1200);
"""
FORBIDDEN = re.compile(r"\b(fetch|XMLHttpRequest|WebSocket|EventSource|sendBeacon|importScripts|eval|innerHTML|outerHTML(?=\s*\+?=)|insertAdjacentHTML|document\.write|localStorage"
                       r"|sessionStorage|indexedDB|cookie|RTCPeerConnection|serviceWorker|iframe|submit|window\.open)\b|new Function")
CONTRAST = """
const luminance = ([r, g, b]) => [r, g, b].map(v => v / 255).map(v => v <= 0.03928 ? v / 12.92 : ((v + 0.055) / 1.055) ** 2.4)
    .reduce((sum, v, n) => sum + v * [0.2126, 0.7152, 0.0722][n], 0);
const parse = text => (text.match(/[\\d.]+/g) || []).map(Number), bad = [];
let count = 0;
const back = element => { for (let one = element; one; one = one.parentElement) { const c = parse(getComputedStyle(one).backgroundColor);
    if (c.length === 3 || c[3] > 0.99) return c.slice(0, 3); } return [255, 255, 255]; };
for (const element of document.querySelectorAll('main:not([hidden]) *, header *')) {
    if (element.closest('svg') || !element.checkVisibility() || element.disabled) continue;
    const own = [...element.childNodes].some(node => node.nodeType === 3 && node.textContent.trim()) || element instanceof HTMLInputElement;
    if (!own) continue;
    const style = getComputedStyle(element), a = luminance(parse(style.color)), b = luminance(back(element));
    const ratio = (Math.max(a, b) + 0.05) / (Math.min(a, b) + 0.05), large = parseFloat(style.fontSize) >= 24 || (parseFloat(style.fontSize) >= 18.6 && +style.fontWeight >= 700);
    count++;
    if (ratio < (large ? 3 : 4.5)) bad.push([element.id || element.className || element.tagName, element.textContent.slice(0, 30), ratio.toFixed(2)]);
}
return [count, bad];
"""
NAMES = """
return [...document.querySelectorAll('button, input, select, textarea, svg[role], svg [role], [role=group], section')].filter(one => {
    const name = one.getAttribute('aria-label') || (one.getAttribute('aria-labelledby') || '').split(' ').map(id => document.getElementById(id)?.textContent || '').join('')
        || (one.labels && [...one.labels].map(label => label.textContent).join('')) || (one instanceof HTMLButtonElement && one.textContent);
    return !name || !name.trim();
}).map(one => one.outerHTML.slice(0, 120));
"""

REFUSED = "NID_BG 9; 12: V_MAIN 125, L_ENDSECTION 300; 5: D_LINK 500, NID_BG 10, Q_LINKORIENTATION 1, Q_LINKREACTION 1, Q_LOCACC 5; 44: NID_XUSER 3"
NAME = b"\x08gaknifur"
BUILDS = (("0.1.0, commit 0badcafe, unproved", "0.1.0, commit 0badcafe, unproved", True),
          ("0.1.0, commit 0badcafe, proved", "0.1.0, commit 0badcafe, compiled from proved sources", False),
          ("", "a module that doesn't say whether it is proved", True))
"""What a module says at its end, what the page says of it, and whether that is marked."""


class Listener(socketserver.ThreadingTCPServer):
    """A server that notes who asks for something, and answers nothing."""

    daemon_threads = True

    def __init__(self) -> None:
        super().__init__(("127.0.0.1", 0), socketserver.BaseRequestHandler)
        self.url, self.asked = f"http://127.0.0.1:{self.server_address[1]}/", list[str]()
        threading.Thread(target=self.serve_forever, daemon=True).start()

    def finish_request(self, request: Any, client_address: Any) -> None:
        if line := request.recv(200).partition(b"\r\n")[0]:
            self.asked.append(line.decode(errors="replace"))


def connections(browser: Browser, page: Path, folder: Path) -> int:
    """The page reaches nobody; the same page without its policy does, so the test can fail."""
    listener = Listener()
    reached = browser.run_later(TRIES, listener.url)
    assert reached == [False] * 5, reached
    browser.run_later(LEAVES, listener.url)
    assert not listener.asked, listener.asked
    text = page.read_text(encoding="utf-8")
    policy = re.search(r'<meta http-equiv="Content-Security-Policy" content="([^"]*)">', text)
    assert policy and "connect-src" not in policy[1] and policy[1].startswith("default-src 'none';")
    without = folder / "without.html"
    without.write_text(text.replace(policy[0], ""), encoding="utf-8")
    browser.open(without)
    browser.run_later(TRIES, listener.url)
    assert len(listener.asked) >= 4, listener.asked
    assert not re.search(r"""(src|href)\s*=\s*["'](?!data:)""", re.sub(r"(?s)<script>.*?</script>", "", text))
    listener.shutdown()
    listener.server_close()
    return 11


def sources(_browser: Browser, _page: Path, _folder: Path) -> int:
    """The sources import nothing from outside, and name no call that reaches out, stores something or makes markup."""
    count = 0
    for path in sorted((TOP / "browser").glob("*.ts")):
        text = path.read_text(encoding="utf-8")
        code = re.sub(r"//.*|/\*(?s:.*?)\*/", "", text)
        assert not FORBIDDEN.search(code), (path, FORBIDDEN.search(code))
        assert all(one.startswith("./") for one in re.findall(r'from "([^"]*)"', text)), path
        count += 1
    return count


def hostile(browser: Browser, _page: Path, folder: Path) -> int:
    """Files that are no image get a sentence, and the next image is read."""
    whole = image(folder, [example("trip")], 16)
    wanted = {"empty": (b"", "less than one sector"), "text": (b"Dear investigator,\n" * 400, "isn't the image of a journal"),
              "random": (bytes((n * n * 31 + 7 * n) & 255 for n in range(20000)), "isn't the image of a journal"),
              "first": (whole[:512], "ends early"), "slots": (whole[:12] + b"\xff\xff\xff\xff" + whole[16:], "isn't the image of a journal"),
              "<img src=x onerror=alert(1)>": (b"x" * 600, "isn't the image of a journal")}
    for name, (data, says) in wanted.items():
        path = folder / name.replace("/", "_")
        path.write_bytes(data)
        browser.ask(path)
        assert says in browser.text("ask-error") and name in browser.text("ask-error"), (name, browser.text("ask-error"))
    huge = folder / "huge"
    with open(huge, "wb") as file:
        file.truncate(1 << 30)
    browser.ask(huge)
    assert "more than 512 MB" in browser.text("ask-error")
    path = folder / "trip"
    path.write_bytes(whole)
    assert browser.ask(path)["count"] == 17 and browser.text("ask-error") == ""
    assert not browser.run("return document.querySelector('img, b')") and browser.complaints() == []
    return len(wanted) + 2


def markup(browser: Browser, _page: Path, folder: Path) -> int:
    """What a driver enters is text, on the desk and in an image."""
    for text in ("<b>bold</b>", "<img src=x>", "\"'><script>", "&lt;b&gt;"):
        browser.run("document.getElementById('tab-drive').click(); const i = document.getElementById('identity'); i.value = arguments[0]", text)
        browser.click("enter-identity")
        assert browser.text("drive-error") == "" and f"identity {text};" in browser.text("life-said"), (text, browser.text("life-said"))
        steps = [{"driver": [1, text]}, {"driver": [4, 1]}]
        path = folder / "image"
        path.write_bytes(image(folder, [{"steps": steps}], 4))
        browser.ask(path)
        browser.run("window.gaknifur.ask.chooseEvent(1)")
        assert f"enters the identity “{text}”" in browser.text("event-said")
        assert text in browser.text("fields") and text in browser.text("kept")
        assert not browser.run("return document.querySelector('main b, main img, main script')")
    browser.run("document.getElementById('identity').value = 'ü'.repeat(16); document.getElementById('tab-drive').click()")
    browser.click("enter-identity")
    assert "1 to 16 letters" in browser.text("entry-error")
    assert browser.complaints() == []
    return 13


def looks(browser: Browser, page: Path, folder: Path) -> int:
    """Contrast by WCAG AA in light and dark, names of all that is used, and a window of 390 pixels for an image and a telegram."""
    path = folder / "image"
    path.write_bytes(image(folder, [example("power_cut"), example("power_cut", "restart.json"), example("trip")], 6))
    count = 0
    for tab in ("drive", "ask", "telegram"):
        browser.click(f"tab-{tab}", *((*START, "edit") if tab == "drive" else ()))
        if tab == "ask":
            browser.ask(path)
        if tab == "telegram":
            browser.run("const t = document.getElementById('telegram-words'); t.value = arguments[0]; t.dispatchEvent(new Event('input'))", REFUSED)
            assert browser.run("return document.querySelectorAll('#telegram-form [aria-invalid]').length") == 1
        for _ in range(2):
            number, bad = browser.run(CONTRAST)
            assert not bad and number > 40, (tab, number, bad)
            count += number
            browser.click("theme")
    assert browser.run(NAMES) == []
    browser.show(390, 800)
    browser.open(page)
    browser.ask(path)
    browser.run("const t = document.getElementById('telegram-words'); t.value = arguments[0]; t.dispatchEvent(new Event('input'))", REFUSED)
    for tab in ("drive", "telegram", "ask"):
        browser.click(f"tab-{tab}")
        wide = browser.run("return [document.documentElement.scrollWidth, innerWidth]")
        assert wide[0] <= 390 == wide[1], (tab, wide)
    assert browser.run("const b = document.getElementById('scrub').getBoundingClientRect(); return b.width > 100 && b.right <= 390")
    browser.show()
    return count + 4


def builds(browser: Browser, page: Path, folder: Path) -> int:
    """Version and commit, and whether the unit is proved, as its module says them at its end: in the title, at the top, and on paper."""
    found = re.search(r'"wasm":"([^"]*)"', page.read_text(encoding="utf-8"))
    whole = base64.b64decode(found[1]) if found else b""
    plain = whole[:whole.rindex(NAME) - 2]
    for note, says, is_marked in BUILDS:
        module, made = folder / "module", folder / "made.html"
        module.write_bytes(plain + (bytes((0, len(NAME) + len(note))) + NAME + note.encode() if note else b""))
        subprocess.run([TOP / "tools/page", "--force", made], stdin=subprocess.DEVNULL, capture_output=True, check=True, env=os.environ | {"GAKNIFUR_WASM": str(module)})
        browser.open(made)
        assert says in browser.run("return document.title") and says in browser.text("version"), (says, browser.text("version"))
        assert browser.run("return document.getElementById('unproved').checkVisibility()") == is_marked, says
        browser.show(media="print")
        browser.run("dispatchEvent(new Event('beforeprint'))")
        assert browser.run("return document.getElementById('printed').checkVisibility()") and says in browser.text("printed"), browser.text("printed")
        browser.show()
    return 4 * len(BUILDS)


CHECKS = {"connections": (connections, 11), "sources": (sources, 24), "hostile": (hostile, 8), "markup": (markup, 13), "looks": (looks, 250), "builds": (builds, 12)}
