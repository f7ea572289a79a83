"""Debian's Chromium, headless, with the page open: for the tests and the pictures of the page."""
import base64
import time
from pathlib import Path
from typing import Any, Self

from selenium import webdriver
from selenium.webdriver.chrome.service import Service
from selenium.webdriver.common.by import By

WORDS = ("--headless=new", "--no-sandbox", "--disable-dev-shm-usage", "--disable-gpu", "--disable-background-networking", "--disable-component-update",
         "--disable-extensions", "--no-first-run", "--hide-scrollbars", "--force-color-profile=srgb", "--window-size=1400,1100")
NEVER_S = 600
"""After this time something never ends."""


class Browser:
    """The browser and its page."""

    def __init__(self) -> None:
        options = webdriver.ChromeOptions()
        for word in WORDS:
            options.add_argument(word)
        options.binary_location = "/usr/bin/chromium"
        options.set_capability("goog:loggingPrefs", {"browser": "ALL"})
        self.driver = webdriver.Chrome(service=Service("/usr/bin/chromedriver"), options=options)
        self.driver.set_script_timeout(NEVER_S)

    def __enter__(self) -> Self:
        return self

    def __exit__(self, *_: object) -> None:
        self.driver.quit()

    def run(self, script: str, *words: Any) -> Any:
        """Returns what a script returns within the page."""
        return self.driver.execute_script(script, *words)

    def run_later(self, script: str, *words: Any) -> Any:
        """Returns what a script hands to the call that is its last argument."""
        return self.driver.execute_async_script(script, *words)

    def complaints(self) -> list[str]:
        """The warnings and errors of the browser since the last time."""
        return [line["message"] for line in self.driver.get_log("browser") if line["level"] in ("SEVERE", "WARNING")]

    def show(self, width: int = 0, height: int = 0, media: str = "") -> None:
        """Shows the page in a window of this size, or in its own one; on a screen, or as `print` shows it."""
        size = {"width": width, "height": height, "deviceScaleFactor": 1, "mobile": False}
        self.driver.execute_cdp_cmd("Emulation.setDeviceMetricsOverride", size)
        self.driver.execute_cdp_cmd("Emulation.setEmulatedMedia", {"media": media})

    def open(self, page: Path, hash_: str = "") -> None:
        """Opens the page anew."""
        self.driver.get("about:blank")
        self.driver.get(f"file://{page}{hash_}")
        self.until("return !!window.gaknifur")

    def until(self, script: str) -> None:
        """Waits until a script answers true."""
        end = time.monotonic() + NEVER_S
        while not self.run(script):
            if time.monotonic() > end:
                raise TimeoutError(f"{script}: {self.run('return document.body.innerText')[:300]}")
            time.sleep(0.02)

    def click(self, *names: str) -> None:
        """Clicks buttons, as a user does."""
        for name in names:
            self.run("document.getElementById(arguments[0]).scrollIntoView({block: 'center'})", name)
            self.driver.find_element(By.ID, name).click()

    def text(self, name: str) -> str:
        """The text of an element."""
        return str(self.run("return document.getElementById(arguments[0]).textContent", name))

    def send(self, name: str, path: Path) -> None:
        """Chooses a file."""
        self.run("document.getElementById(arguments[0]).value = ''", name)
        self.driver.find_element(By.ID, name).send_keys(str(path))

    def hand(self, path: Path) -> None:
        """Hands over an image."""
        self.click("tab-ask")
        self.send("file", path)

    def ask(self, path: Path) -> dict[str, Any]:
        """Hands over an image, and returns what the page shows of it once it is complete."""
        self.run("window.before = window.gaknifur.ask.id")
        self.hand(path)
        self.until("const a = window.gaknifur.ask; return a.id > window.before && (a.image ? a.isDone : document.getElementById('ask-error').textContent !== '')")
        return dict(self.run("return JSON.parse(JSON.stringify(window.gaknifur.ask.findings, (_, one) => typeof one === 'bigint' ? Number(one) : one))"))

    def image(self) -> bytes:
        """The image of the desk."""
        url = self.run_later("const done = arguments[0], reader = new FileReader(); reader.onload = () => done(reader.result);"
                              " reader.readAsDataURL(new Blob([window.gaknifur.drive.image()]))")
        return base64.b64decode(url.partition(",")[2])
