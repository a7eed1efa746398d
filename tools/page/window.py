"""A headless chromium as a module, driven by Debian's python3-selenium, for tests of pages.

    with Page(1200, 800) as page:             # a page of a walk, from disk
        page.open("walk.html", 12).press("ArrowDown", "Shift+Enter").chosen()
    with Live() as window:                    # a page that `tools/page/live` serves
        window.open(server.address).press("Enter").retype("look").text("#told")

What does something gives the window back, so what is asked then can stand behind it.
"""

import os
import pathlib
import re
import shutil
from typing import Any, TypeVar

from selenium import webdriver
from selenium.common.exceptions import TimeoutException
from selenium.webdriver.common.action_chains import ActionChains
from selenium.webdriver.common.by import By
from selenium.webdriver.common.keys import Keys
from selenium.webdriver.support.wait import WebDriverWait

from common.files import text_of

ARGUMENTS = """--headless=new --no-first-run --disable-gpu --force-device-scale-factor=1
--force-color-profile=srgb --hide-scrollbars --disable-dev-shm-usage""".split()
SECONDS = 30
ASKED = text_of("tools/page/asked.js")
QUIET = """return wire.number >= 0 && !wire.isAsking && !editor.isSending
  && document.readyState === 'complete'"""
It = TypeVar("It", bound="Window")


def signs_of(key: str) -> list[str]:
    """A key by its name or sign, as selenium has it; those of `Shift+Enter` are held together."""
    names = key.split("+") if len(key) > 1 else [key]
    return [getattr(Keys, re.sub(r"(?<=[a-z])(?=[A-Z])", "_", it).upper(), it) for it in names]


class Window(webdriver.Chrome):
    """A window of chromium, which is closed at the end of the `with`."""

    move = 0  # milliseconds that the mouse takes to a place

    def __init__(self, width: int = 1300, height: int = 900) -> None:
        options = webdriver.ChromeOptions()
        for it in [*ARGUMENTS, *["--no-sandbox"] * (os.geteuid() == 0)]:
            options.add_argument(it)
        options.binary_location = shutil.which("chromium") or ""
        options.set_capability("goog:loggingPrefs", {"browser": "ALL"})
        super().__init__(options=options)
        self.size = (width, height)
        self.execute_cdp_cmd("Page.addScriptToEvaluateOnNewDocument", {"source": ASKED})
        self.resize(width, height).shade()

    def settle(self: It) -> It:
        """Waits for what was done."""
        return self

    # ---- what is shown

    def resize(self: It, width: int, height: int) -> It:
        self.execute_cdp_cmd("Emulation.setDeviceMetricsOverride", {
            "width": width, "height": height, "deviceScaleFactor": 1, "mobile": False})
        return self

    def shade(self: It, scheme: str = "light", medium: str = "") -> It:
        """Shows pages by day, `light`, or by night, `dark`; on a screen or in `print`."""
        features = [{"name": "prefers-color-scheme", "value": scheme},
                    {"name": "prefers-reduced-motion", "value": "reduce"}]
        self.execute_cdp_cmd("Emulation.setEmulatedMedia", {"media": medium, "features": features})
        return self

    def messages(self) -> list[str]:
        """What was said on the console since the last call."""
        return [it["message"] for it in self.get_log("browser")]

    # ---- what is asked

    def run(self, script: str, *given: object) -> Any:
        """What a script returns, to which `given` are `arguments`."""
        return self.execute_script(script, *given)

    def ask(self, name: str, *given: object) -> Any:
        """What a function of asked.js returns."""
        return self.run("const [name, ...given] = arguments; return tests[name](...given)", name,
                        *given)

    def wait(self, script: str, *given: object) -> Any:
        """What a script returns, once that is true, or at last all the same."""
        try:
            waiting = WebDriverWait(self, SECONDS, poll_frequency=0.02)
            return waiting.until(lambda window: window.run(script, *given))
        except TimeoutException:
            return self.run(script, *given)

    def value(self, selector: str, name: str = "textContent") -> Any:
        """A property of an element, or nothing if it isn't there."""
        return self.run("return document.querySelector(arguments[0])?.[arguments[1]]", selector,
                        name)

    def text(self, selector: str) -> str:
        return str(self.value(selector, "innerText") or "")

    def each(self, selector: str, of: str = "it.textContent") -> Any:
        """What an expression gives of `it`, for each of some elements."""
        return self.run(f"return [...document.querySelectorAll(arguments[0])].map((it) => {of})",
                        selector)

    def count(self, selector: str) -> int:
        return len(self.each(selector, "0"))

    def chosen(self) -> int:
        """The line that is looked at."""
        return int(self.each('#lines [aria-selected="true"]', "it.dataset.at")[0])

    def focused(self) -> str:
        """The name of the element that has the keys."""
        return str(self.run("return document.activeElement.id"))

    # ---- what is done

    def do(self: It, script: str, *given: object) -> It:
        """Runs a script for what it does."""
        self.run(script, *given)
        return self

    def focus(self: It, selector: str) -> It:
        return self.do("document.querySelector(arguments[0]).focus()", selector)

    def perform(self: It, actions: ActionChains) -> It:
        actions.perform()
        return self.settle()

    def press(self: It, *keys: str) -> It:
        """Presses keys, one after another, and waits for what they lead to."""
        actions = ActionChains(self)
        for signs in map(signs_of, keys):
            for it in signs:
                actions.key_down(it)
            for it in reversed(signs):
                actions.key_up(it)
        return self.perform(actions)

    def click(self: It, selector: str, right: float = 0, down: float = 0, held: str = "") -> It:
        """Clicks into the middle of an element, or this far from it."""
        found = self.find_element(By.CSS_SELECTOR, selector)
        actions = ActionChains(self, duration=self.move)
        for it in signs_of(held) if held else []:
            actions.key_down(it)
        actions.move_to_element_with_offset(found, round(right), round(down)).click()
        for it in signs_of(held) if held else []:
            actions.key_up(it)
        return self.perform(actions)

    def drag(self: It, selector: str, right: int, down: int) -> It:
        """Drags what is in the middle of an element so far."""
        found = self.find_element(By.CSS_SELECTOR, selector)
        return self.perform(ActionChains(self).drag_and_drop_by_offset(found, right, down))


class Page(Window):
    """A window for pages from disk."""

    def open(self: It, path: str, place: object = None) -> It:
        """Opens a page, at a place in the log."""
        self.get("about:blank")
        address = pathlib.Path(path).resolve().as_uri()
        self.get(address + (f"#{place}" if place is not None else ""))
        return self

    def seconds(self) -> float:
        """The processor's time that pages have taken, regardless of what else the machine does."""
        self.execute_cdp_cmd("Performance.enable", {"timeDomain": "threadTicks"})
        metrics = self.execute_cdp_cmd("Performance.getMetrics", {})["metrics"]
        return next(float(it["value"]) for it in metrics if it["name"] == "TaskDuration")


class Live(Window):
    """A window for pages of a log that is edited."""

    move = 250

    def open(self: It, address: str) -> It:
        """Opens a page, and waits for its log."""
        self.run("if (typeof file === 'object') file.isUnsaved = false")  # it asks nothing
        self.get(address)
        return self.settle()

    def settle(self: It) -> It:
        """Waits until all that was asked of the server is answered."""
        self.wait(QUIET)
        return self

    def messages(self) -> list[str]:
        """Without what chromium itself says about an answer that refuses, and about a server that
        has ended."""
        return [it for it in super().messages() if "Failed to load resource: " not in it]

    def type(self: It, text: str) -> It:
        return self.perform(ActionChains(self).send_keys(text))

    def retype(self, text: str) -> "Live":
        """Types over all that the field has."""
        self.press("Control+a")
        return self.type(text) if text else self.press("Delete")

    def clipboard(self, kind: str, text: str = "") -> str:
        found = str(self.ask("clip", kind, text))
        self.settle()
        return found
