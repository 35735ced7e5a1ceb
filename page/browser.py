"""A headless Chromium for page/check, and the colours of what it shows."""
import collections
import os
import pathlib
import shutil
import struct
import sys
import time
import zlib

try:
    from selenium import webdriver
    from selenium.common.exceptions import NoSuchElementException, StaleElementReferenceException
    from selenium.webdriver.chrome.options import Options
    from selenium.webdriver.chrome.service import Service
    from selenium.webdriver.common.action_chains import ActionChains
    from selenium.webdriver.common.actions.action_builder import ActionBuilder
    from selenium.webdriver.common.by import By
    from selenium.webdriver.support.ui import Select
except ImportError:
    sys.exit("python3-selenium absent (Debian's python is /usr/bin/python3)")


def found(name, variable):
    """A tool: what the environment names, or what the system has."""
    path = os.environ.get(variable) or shutil.which(name)
    if not path:
        sys.exit(f"{name} absent")
    return path


class Browser:
    """A window with the page, and what a person does in it. Where `patience` is more than 1, everything may take so many
    times as long."""

    patience = 1

    def __init__(self, downloads, width, height, is_phone=False, scheme="light"):
        options = Options()
        options.binary_location = found("chromium", "CHROMIUM")
        for word in ("--headless=new", "--no-sandbox", "--disable-gpu", "--hide-scrollbars", f"--window-size={width},{height}", "--force-device-scale-factor=1",
                     *(["--blink-settings=preferredColorScheme=0"] if scheme == "dark" else [])):
            options.add_argument(word)
        options.add_experimental_option("prefs", {"download.default_directory": str(downloads), "download.prompt_for_download": False})
        options.set_capability("goog:loggingPrefs", {"browser": "ALL"})
        if is_phone:
            options.add_experimental_option("mobileEmulation", {"deviceMetrics": {"width": width, "height": height, "pixelRatio": 1.0, "touch": True}})
        self.driver = webdriver.Chrome(service=Service(found("chromedriver", "CHROMEDRIVER")), options=options)
        self.downloads = pathlib.Path(downloads)

    def quit(self):
        self.driver.quit()

    def open(self, path):
        self.driver.get(pathlib.Path(path).resolve().as_uri())

    def at(self, name):
        return self.driver.find_element(By.ID, name)

    def all(self, selector):
        return self.driver.find_elements(By.CSS_SELECTOR, selector)

    def text(self, name):
        return self.at(name).text

    def value(self, name):
        return self.at(name).get_property("value")

    def script(self, text, *given):
        return self.driver.execute_script(text, *given)

    def until(self, what, is_so, seconds=20):
        """Waits until something is so. It fails loudly if that never comes."""
        seconds *= self.patience
        end = time.monotonic() + seconds
        while time.monotonic() < end:
            try:
                got = is_so()
            except (NoSuchElementException, StaleElementReferenceException):
                got = False     # the page is just making it, or making it anew
            if got:
                return got
            time.sleep(0.02)
        raise AssertionError(f"{what}: not after {seconds} s; the page says: {self.text('told')}")

    def ready(self, state="all"):
        self.until("the page is ready", lambda: self.script("return document.body.dataset.ready") in (state, "all"))

    def click(self, name):
        element = self.at(name)
        self.script("arguments[0].scrollIntoView({block: 'center'})", element)
        element.click()

    def click_at(self, name, x, y):
        """A click at a point of an element, in its own CSS pixels."""
        left, top = self.script("let at = arguments[0].getBoundingClientRect(); window.scrollBy(0, at.top + arguments[1] - innerHeight / 2);"
                                "at = arguments[0].getBoundingClientRect(); return [at.left, at.top]", self.at(name), y)
        actions = ActionBuilder(self.driver)
        actions.pointer_action.move_to_location(round(left + x), round(top + y)).click()
        actions.perform()

    def keys(self, name, *keys):
        """Keys that go to an element which has the focus."""
        self.script("arguments[0].focus()", self.at(name))
        ActionChains(self.driver).send_keys(*keys).perform()

    def keys_here(self, *keys):
        """Keys that go to the element which has the focus."""
        ActionChains(self.driver).send_keys(*keys).perform()

    def write(self, name, text):
        element = self.at(name)
        element.clear()
        element.send_keys(text)

    def choose(self, name, text):
        Select(self.at(name)).select_by_visible_text(text)

    def faults(self):
        """What the page wrote to its console as an error."""
        return [it["message"] for it in self.driver.get_log("browser") if it["level"] == "SEVERE"]

    def downloaded(self, name, seconds=20):
        """The bytes of a file that was saved."""
        path = self.downloads / name
        self.until(f"{name} is saved", lambda: path.is_file() and not list(self.downloads.glob("*.crdownload")), seconds)
        content = path.read_bytes()
        path.unlink()
        return content

    def picture(self, name=None):
        """The pixels of an element, or of the window: a list of rows of (red, green, blue)."""
        if name:
            self.script("arguments[0].scrollIntoView({block: 'center'})", self.at(name))
        shot = self.at(name).screenshot_as_png if name else self.driver.get_screenshot_as_png()
        return pixels_of(shot)


def pixels_of(png):
    """The rows of a PNG file of eight bits a colour."""
    at, data, head = 8, b"", None
    while at < len(png):
        length, kind = struct.unpack(">I4s", png[at:at + 8])
        body = png[at + 8:at + 8 + length]
        head = struct.unpack(">IIBB", body[:10]) if kind == b"IHDR" else head
        data += body if kind == b"IDAT" else b""
        at += 12 + length
    width, height, _, kind = head
    size, raw = {2: 3, 6: 4}[kind], zlib.decompress(data)
    before, rows = bytearray(width * size), []
    for y in range(height):
        begin = y * (width * size + 1)
        line = unfiltered(raw[begin], bytearray(raw[begin + 1:begin + 1 + width * size]), before, size)
        rows.append([tuple(line[x:x + 3]) for x in range(0, len(line), size)])
        before = line
    return rows


def unfiltered(kind, line, before, size):
    """A row of a PNG file without its filter."""
    for i in range(len(line) if kind else 0):
        left, up, corner = line[i - size] if i >= size else 0, before[i], before[i - size] if i >= size else 0
        if kind == 4:
            guess = left + up - corner
            near = min((abs(guess - it), n) for n, it in enumerate((left, up, corner)))[1]
            more = (left, up, corner)[near]
        else:
            more = (0, left, up, (left + up) // 2)[kind]
        line[i] = line[i] + more & 255
    return line


def colours(rows):
    """How many pixels have each colour."""
    return collections.Counter(pixel for row in rows for pixel in row)


def rgb(text):
    """The colour of a text like #0072B2."""
    return tuple(int(text[i:i + 2], 16) for i in (1, 3, 5))


def small_png(rows, always):
    """A PNG file of the pixels with 256 colours: some that it has always, the most frequent ones, and for each other
    one the nearest of these."""
    palette = list(dict.fromkeys([*always, *(colour for colour, _ in colours(rows).most_common(256))]))[:256]
    places = {colour: i for i, colour in enumerate(palette)}

    def place(pixel):
        if pixel not in places:
            places[pixel] = min(range(len(palette)), key=lambda i: sum((one - other) ** 2 for one, other in zip(palette[i], pixel)))
        return places[pixel]

    def chunk(kind, body):
        return struct.pack(">I", len(body)) + kind + body + struct.pack(">I", zlib.crc32(kind + body))

    data = b"".join(b"\0" + bytes(map(place, row)) for row in rows)
    head = struct.pack(">IIBBBBB", len(rows[0]), len(rows), 8, 3, 0, 0, 0)
    return b"\x89PNG\r\n\x1a\n" + chunk(b"IHDR", head) + chunk(b"PLTE", b"".join(map(bytes, palette))) + chunk(b"IDAT", zlib.compress(data, 9)) + chunk(b"IEND", b"")
