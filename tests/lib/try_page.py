"""The page of callers/wasm/page in a headless Chromium, beside the library for x86-64."""
import ctypes
import json
import random
import re
import time
import unicodedata

from lib import browser, tables
from lib.described import use_http
from lib.scripts import unlike
from lib.spoiled import some_json

MOST, BODIES = 500, 200
LANGUAGES = ("en", "cs")
FILES = {"/page/", "/page/style.css", "/page/page.js", "/page/examples.js", "/page/rules.rs", "/index.js", "/module.js", "/nodes.js", "/order.32.wasm"}
# What is asked of the page: its faults where a body is put into it, its colours, the sizes of its controls, how wide it is, what has the
# focus, an example, and all of them.
FAULTS, COLOURS, TARGETS, WIDTH, FOCUS, EXAMPLE, EXAMPLES = (it.text for it in tables.cases("try-page"))
# Scripts that a page could be made to run.
PLANTED = ("document.body.append(Object.assign(document.createElement('script'), { textContent: 'globalThis.planted = 1' }))",
           "document.body.setAttribute('onclick', 'globalThis.planted = 1'); document.body.click()")
HIDDEN = ("Cc", "Cf", "Zl", "Zp")


class Place(ctypes.Structure):
    _fields_ = [("line", ctypes.c_uint64), ("column", ctypes.c_uint64)]


class Checker(ctypes.Structure):
    _fields_ = [("room", ctypes.c_void_p), ("has_room", ctypes.c_bool)]


class Library:
    """The shared library, as C calls it."""

    def __init__(self, path):
        self.calls, self.checker, self.out = ctypes.CDLL(path), Checker(), ctypes.create_string_buffer(1 << 20)
        self.calls.order_faults_with.restype = ctypes.c_uint8

    def said(self, body, language):
        """The status of a body, its problem details, and the places of its faults."""
        places, size, spare = (Place * MOST)(), ctypes.c_size_t, ctypes.create_string_buffer(8)
        length, nodes, texts, count = size(), size(), size(), size()
        given = [ctypes.byref(self.checker), body, size(len(body)), size(MOST), language.encode(), size(len(language)), self.out,
                 size(len(self.out)), ctypes.byref(length), spare, size(0), ctypes.byref(nodes), spare, size(0), ctypes.byref(texts)]
        status = self.calls.order_faults_with(*given, places, size(MOST), ctypes.byref(count))
        return status, json.loads(ctypes.string_at(self.out, length.value) or b'{"errors": []}'), places

    def faults(self, body, language):
        """The faults of a body: of each the path, the text, the line and the column. One that is no JSON has its reason."""
        status, said, places = self.said(body, language)
        if status == 2:
            line, column = map(int, re.search(r"line (\d+) column (\d+)$", said["detail"]).groups())
            return [["the whole body", said["detail"], line, column]]
        return [[shown(it["pointer"]), it["detail"], at.line, at.column] for it, at in zip(said["errors"], places)]


def shown(pointer):
    """A path as the page shows it."""
    escaped = (f"\\u{{{ord(it):x}}}" if unicodedata.category(it) in HIDDEN else it for it in pointer)
    return "".join(escaped) or "the whole body"


class Page(browser.Browser):
    """A browser that takes down what is wrong by its console."""

    def __init__(self, path):
        self.wrong = []
        super().__init__(path)
        self.call("Log.enable")

    def seen(self, message):
        if message.get("method") in ("Log.entryAdded", "Runtime.exceptionThrown", "Runtime.consoleAPICalled"):
            self.wrong.append(f"console: {json.dumps(message['params'])}")
        super().seen(message)

    def asked(self, function, *given):
        return self.value(f"({function})({', '.join(map(json.dumps, given))})")

    def screen(self, width, height, scheme="light"):
        self.call("Emulation.setDeviceMetricsOverride", width=width, height=height, deviceScaleFactor=1, mobile=width < 500)
        self.call("Emulation.setEmulatedMedia", features=[{"name": "prefers-color-scheme", "value": scheme}])

    def opened(self, url):
        self.loaded("Page.navigate", url=url)
        ends = time.monotonic() + 30
        while not self.value("document.body.dataset.state"):
            if time.monotonic() > ends:
                raise browser.Refused("the page says nothing")
            time.sleep(0.05)


def offset_of(text, line, column):
    """Where a place is in a text, in UTF-16 units."""
    mark = text.startswith("\ufeff")
    lines = text[mark:].split("\n")
    before = "\n".join([*lines[:line - 1], lines[line - 1][:column - 1]])
    return mark + len(before.encode("utf-16-le", "surrogatepass")) // 2


def of_bodies(page, library):
    """What is wrong with the faults of random bodies, most of them spoiled, in each language."""
    dice = random.Random(94)
    for number in range(BODIES):
        body = some_json(dice, use_http.ORDER)[0].decode("utf-8", "replace")
        for language in LANGUAGES:
            said = page.asked(FAULTS, body, language)
            text = said["text"].encode("utf-16", "surrogatepass").decode("utf-16", "replace")
            wanted = library.faults(text.encode(), language) if text else []
            begins = [offset_of(text, *it[2:]) for it in wanted]
            rows = [("faults", said["faults"], wanted), ("selected", said["selected"], begins)]
            rows += [("marked", said["marked"], sorted(set(begins))), ("what is behind the marks", said["behind"], said["text"] + "\n")]
            yield from unlike(f"body {number} in {language}: ", rows)


def of_examples(page, library):
    """What is wrong with the examples: each is what its group says, and they have faults of all kinds."""
    codes, kinds = set(), set()
    for group, name, text in page.asked(EXAMPLES):
        status, said, _ = library.said(text.encode("utf-8", "replace"), "en")
        codes |= {it["code"] for it in said["errors"]}
        if status != {"Valid": 0, "Faults": 1, "Not JSON": 2}.get(group, status):
            yield f"{group}: {name}: the status is {status}"
    for dice in map(random.Random, range(10 * BODIES)):
        kinds |= {it["code"] for it in library.said(some_json(dice, use_http.ORDER)[0], "en")[1]["errors"]}
    if kinds - codes:
        yield f"no example has the faults {sorted(kinds - codes)}"


def of_names(page):
    """The controls that a screen reader has no name for, and those that it has."""
    roles, nodes = ("button", "combobox", "tab", "tabpanel", "textbox", "region"), page.call("Accessibility.getFullAXTree")["nodes"]
    met = [(it["role"]["value"], it.get("name", {}).get("value", "")) for it in nodes if it.get("role", {}).get("value") in roles]
    wanted = {("combobox", "Example"), ("combobox", "Messages in"), ("textbox", "Body"), ("tab", "Faults"), ("tabpanel", "Faults"),
              ("button", "lower than 1 /lines/0/count line 4, column 30")}
    yield from (f"a {role} has no name" for role, name in met if not name)
    yield from (f"there is no {role} {name}" for role, name in sorted(wanted - set(met)))


def of_looks(page):
    """What is wrong with colours, sizes and widths, in each state, by each tab, in both schemes."""
    for scheme in ("light", "dark"):
        for width, size in ((1280, "100%"), (320, "100%"), (320, "200%")):
            page.screen(width, 800, scheme)
            for example in ("Several", "One line", "A comma too many", "20,000 lines", "Names that turn and hide", "Your own"):
                for tab in ("faults", "details", "rules"):
                    page.asked(EXAMPLE, example, tab, size)
                    found = [*page.asked(COLOURS), *page.asked(TARGETS), *page.asked(WIDTH, width)]
                    yield from (f"{scheme}, {width} px, {size}, {example}, {tab}: {it}" for it in found)
    page.asked(EXAMPLE, "Several", "faults", "100%")
    page.screen(1280, 800)


def of_keys(page):
    """What is wrong where the page is used by keys alone: what has the focus, each time with a ring around it."""
    steps = (
        ("Tab", "example"), ("Tab", "language"), ("ArrowDown Tab", "body"), ("Tab", "tab-faults"), ("ArrowRight", "tab-details"),
        ("ArrowRight", "tab-rules"), ("ArrowRight", "tab-faults"), ("Tab Tab", "hodnota je menší než 1"), ("Enter", "body"),
    )
    for keys, wanted in steps:
        page.press(*keys.split())
        yield from unlike("keys ", [(keys, page.asked(FOCUS), [wanted, True])])
    page.call("Input.insertText", text="7")
    met = page.value("[document.getElementById('body').value.split('\\n')[3].trim(), document.querySelectorAll('li').length]")
    yield from unlike("", [("where a count is typed", met, ['{"code": "P22", "count": 7},', 6])])


def of_policy(page, url):
    """What is wrong with what the page asks for, and with a script that is planted in it."""
    asked = {it.address.removeprefix(url.removesuffix("/page/")) for it in page.exchanges}
    if asked != FILES:
        yield f"requests: {sorted(asked)}"
    for planted in PLANTED:
        page.value(f"try {{ {planted} }} catch {{}}")
    if page.value("globalThis.planted"):
        yield "a planted script runs"


def draw(page, url, folder):
    """Takes a picture of the page on a wide screen, and on a phone in the dark."""
    page.screen(1120, 720)
    page.opened(url)
    page.pictured(folder / "try-page.png")
    page.screen(360, 760, "dark")
    page.opened(url)
    page.press("Tab", "Tab", "ArrowDown", "Tab", "Tab", "Tab", "Tab", "Tab", "Enter")
    page.pictured(folder / "try-page-phone.png")


def wrong_with(bound, pictures=None):
    """What is wrong with the page of a folder that `tools/bind --page` wrote. A folder for pictures gets two of it."""
    library = Library(str(bound / "liborder.so"))
    with browser.served(bound / "wasm") as address, Page(browser.found()) as page:
        url = f"{address}/page/"
        page.screen(1280, 800)
        page.opened(url)
        found = list(of_keys(page))
        page.opened(url)
        found += [*of_names(page), *of_examples(page, library), *of_bodies(page, library), *of_looks(page)]
        if pictures:
            draw(page, url, pictures)
        page.opened(url)
        found += page.wrong
        return [f"page: {it}" for it in [*found, *of_policy(page, url)]]
