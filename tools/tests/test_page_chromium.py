"""fbr-page in Chromium without a window: what changes, what is denied, markup that stays text, winding back, many events, light and dark."""
import json
import os
import pathlib
import shutil
import tempfile
import threading
import time
import unittest
from unittest import mock

import page_parts as parts
from page_parts import TANK, Browser, Device, Running, offer, program, turn, waited

from fbrpage.history import History
from fbrpage.server import FURTHEST, Server

LACKING = [package for package, name in (("chromium", "chromium"), ("chromium-driver", "chromedriver"), ("graphviz", "dot")) if not shutil.which(name)]
# As many events come in a minute at least, for so many minutes.
RATE, MINUTES = 10_000, 5 if os.environ.get("LONG") else 1
# How much the elements and the bytes of JavaScript may grow meanwhile.
MORE_ELEMENTS, MORE_BYTES = 0, 1_000_000
LEFT, RIGHT, HOME, END = "\ue012", "\ue014", "\ue011", "\ue010"
OF_SLOT = """
const found = [...document.querySelectorAll("#picture svg text")].find((it) => (it.querySelector("title")?.textContent ?? "").startsWith(arguments[0]));
return found ? found.firstChild.data : null;
"""
MARKUP = "<img/src=x/onerror=hit=1>"


@unittest.skipIf(LACKING, f"missing: {' '.join(LACKING)}")
class InBrowser(parts.Folder):
    """A page in a browser."""

    @classmethod
    def setUpClass(cls) -> None:
        cls.home = pathlib.Path(tempfile.mkdtemp(prefix="fbr-page-"))
        cls.addClassCleanup(shutil.rmtree, cls.home, True)
        cls.browser = Browser(cls.home)
        cls.addClassCleanup(cls.browser.end)

    def setUp(self) -> None:
        super().setUp()
        self.browser.colours("light")
        self.browser.size(1024, 768)

    def page(self, fbr: str | None = None) -> Running:
        """The page, which runs and is open in the browser, and is ended with the test."""
        running = Running(TANK, self.certificate, self.record, fbr=fbr)
        self.addCleanup(running.end)
        self.browser.open(f"http://127.0.0.1:{running.port}/")
        return running

    def device(self) -> Device:
        """A tank that runs, and is ended with the test."""
        device = Device(self.certificate, self.record)
        self.addCleanup(device.end)
        return device

    def shows(self, wanted, script: str, *arguments) -> None:
        """Waits until a script gives what is wanted."""
        found = []

        def gives() -> bool:
            """Whether it gives it now."""
            found[:] = [self.browser.run(script, *arguments)]
            return found[0] == wanted

        self.assertTrue(waited(gives, pause=0.1), f"{found} is not {wanted}; {script} {arguments}")

    def shows_slot(self, title: str, wanted: str) -> None:
        """Waits until the picture shows a text at the place whose title begins with this."""
        self.shows(wanted, OF_SLOT, title)

    def rows(self, name: str) -> list[list[str]]:
        """The rows of a table."""
        return self.browser.run("return [...document.getElementById(arguments[0]).rows].map((row) => [...row.cells].map((it) => it.textContent))", name)

    def shown_number(self) -> int:
        """The number of the event that is shown."""
        return int(self.browser.text("event").split()[1])

    def test_values_change_and_denials_are_seen(self) -> None:
        device = self.device()
        page = self.page()
        self.shows_slot("CONTROL.VALVE_OPEN: ", "FALSE")
        self.shows_slot("LEVEL · queue", "LEVEL · queue 0 of 10")
        device.offer(3, ("BOOL", 1))
        device.offer(1, ("INT", 6000))
        self.shows_slot("CONTROL.VALVE_OPEN: ", "TRUE")
        self.shows_slot("CONTROL: OPENED", "OPENED")
        self.shows_slot("MEASURING.SCALING.LEVEL: ", "217")
        self.shows_slot("LEVEL_SENSOR: ×1", "×1")
        marked = "return document.querySelector('#picture .node.last text').textContent"
        self.shows("INLET_VALVE", marked)
        causes = [it[1:2] + it[3:4] for it in self.rows("causes")]
        self.assertEqual(causes, [["INPUT 1", "38 of 43"], ["INPUT 3", "2 of 5"]])
        self.assertEqual(self.rows("outputs")[0][:3], ["1", "INLET_VALVE", "1"])
        self.assertEqual(self.rows("denials"), [])
        device.offer(9, ("INT", 1))
        device.send(b"hello")
        self.shows(True, "return [...document.querySelectorAll('#denials tr.denied td:first-child')].some((it) => it.textContent === 'INPUT 9')")
        denied = waited(lambda: self.denied_by(device), pause=0.5)
        self.assertIn(["INPUT 9", "50", "there is no such INPUT", "1"], [it[:4] for it in denied])
        self.assertIn(["5 bytes", "55", "it is no message (Magic)", "1"], [it[:4] for it in denied])
        self.assertIn("53", [it[1] for it in denied])
        colour = self.browser.run("return getComputedStyle(document.querySelector('#denials td')).color")
        self.assertEqual(colour, "rgb(179, 0, 27)")
        node = "[...document.querySelectorAll('#picture .node')].find((it) => it.querySelector('text').textContent === 'CONTROL')"
        self.browser.run(f"{node}.dispatchEvent(new MouseEvent('click', {{ bubbles: true }}))")
        self.shows("CONTROL", "return document.getElementById('instance').value")
        self.shows("in OPENED", "return document.getElementById('state').textContent")
        self.assertIn(["ENABLED", "TRUE"], self.rows("values"))
        self.assertEqual((self.browser.errors(), page.snapshot()["status"]["unknown"]), ([], 0))

    def denied_by(self, device: Device) -> list[list[str]] | None:
        """Offers more at a time than there is room for; the rows of denials, once one says so."""
        for _ in range(60):
            device.offer(1, ("INT", 9000))
        rows = self.rows("denials")
        return rows if "53" in [it[1] for it in rows] else None

    def test_winding_back(self) -> None:
        levels = (turn(10 * it, offer(1, ("INT", 1000 * it))) + turn(10 * it + 1) * 9 for it in range(1, 21))
        self.put(self.head + turn(0, offer(3, ("BOOL", 1))) + turn(1) * 3 + "".join(levels))
        page = self.page()
        last = waited(lambda: page.snapshot()["last"])
        self.shows("live", "return document.getElementById('mode').textContent")
        self.shows_slot("LEVEL_SENSOR.RD_1: ", "20000")
        self.browser.press(" ")
        self.shows("paused", "return document.getElementById('mode').textContent")
        here = self.browser.run("return document.querySelector('main').innerText")
        self.browser.press(LEFT)
        self.shows(str(last - 1), "return document.getElementById('event').textContent.split(' ')[1]")
        self.assertNotEqual(self.browser.run("return document.querySelector('main').innerText"), here)
        self.browser.press(RIGHT)
        self.shows(str(last), "return document.getElementById('event').textContent.split(' ')[1]")
        # Now the state is the server's, and before it was the page's own: both are the same.
        self.assertEqual(self.browser.run("return document.querySelector('main').innerText"), here)
        middle = next(it for it in range(1, last) if self.at(page, it)["state"]["values"]["LEVEL_SENSOR.RD_1"] == "7000")
        self.browser.run("const it = document.getElementById('slider'); it.value = arguments[0]; it.dispatchEvent(new Event('input'))", middle)
        self.shows_slot("LEVEL_SENSOR.RD_1: ", "7000")
        self.append(turn(1000, offer(1, ("INT", 77))) + turn(1001) * 9)
        self.assertTrue(waited(lambda: page.snapshot()["last"] > last))
        self.shows(f"{page.snapshot()['last']} events, 0 denied", "return document.getElementById('sums').textContent")
        self.shows_slot("LEVEL_SENSOR.RD_1: ", "7000")
        self.browser.press(HOME)
        self.shows_slot("LEVEL_SENSOR.RD_1: ", "0")
        self.browser.press(END)
        self.shows_slot("LEVEL_SENSOR.RD_1: ", "77")
        self.assertEqual((self.browser.text("mode"), self.browser.errors()), ("live", []))

    def at(self, page: Running, number: int) -> dict:
        """The state at an event, as the server has it."""
        generation = page.snapshot()["generation"] if number == 1 else self.generation
        self.generation = generation
        return json.loads(page.asks(f"/state?generation={generation}&at={number}")[2])

    def test_a_record_that_is_replaced_while_it_is_wound_back(self) -> None:
        self.put(self.head + turn(0, offer(1, ("INT", 1000))) + turn(1) * 9)
        self.page()
        self.shows_slot("LEVEL_SENSOR.RD_1: ", "1000")
        self.browser.press(LEFT)
        self.shows("paused", "return document.getElementById('mode').textContent")
        self.put(self.head + turn(0, offer(1, ("INT", 2000))) + turn(1) * 9, "new")
        os.replace(self.folder / "new", self.record)
        self.shows_slot("LEVEL_SENSOR.RD_1: ", "2000")
        self.assertEqual(self.browser.text("mode"), "live")
        self.assertIn("the record was replaced by another file at ", self.browser.text("notices"))
        self.put("no record\n")
        self.shows(True, "return document.querySelector('#notices .fault')?.textContent.includes('this is no record of a device') ?? false")

    def test_markup_stays_text(self) -> None:
        at = {"device": "CONTROLLER", "time": 1}
        said = [
            {"answer": "denied", "input": 1, "line": "denied 53", "number": 53, "says": f"<script>window.hit=1</script>{MARKUP}", "time": 1},
            {"answer": "ran", "cause": 1, "event": MARKUP, "most": 3, "path": f"CONTROLLER.LEVEL.{MARKUP}", "steps": 3, "time": 1},
            {**at, "path": "LEVEL_SENSOR.RD_1", "type": MARKUP, "value": MARKUP},
            {**at, "path": "CONTROL", "state": MARKUP},
            {**at, "path": MARKUP, "state": MARKUP},
            {**at, "path": f"OPERATOR_LIMITS.{MARKUP}", "type": "<b>", "value": "<b>x</b>"},
        ]
        self.put(json.dumps({"1": [*map(json.dumps, said), f"a line {MARKUP}"]}), "lines.json")
        self.put(self.head + turn(1, b"x"))
        with mock.patch.dict(os.environ, {"LINES": str(self.folder / "lines.json"), "FBR": program()}):
            self.page(fbr=str(parts.FAKE))
        self.shows_slot("LEVEL_SENSOR.RD_1: ", MARKUP[:5] + "…")
        self.shows_slot("CONTROL: ", MARKUP[:15] + "…")
        self.assertEqual(self.rows("denials")[0][2], f"<script>window.hit=1</script>{MARKUP}")
        self.assertIn(MARKUP, self.rows("causes")[0][6])
        self.assertIn(MARKUP, self.browser.text("notices"))
        self.browser.run("const it = document.getElementById('instance'); it.value = 'OPERATOR_LIMITS'; it.dispatchEvent(new Event('change'))")
        self.shows(True, "return [...document.getElementById('values').rows].some((it) => it.cells[1].textContent === '<b>x</b>')")
        added = self.browser.run("return [document.querySelectorAll('img, b, script:not([src]), svg svg').length, window.hit ?? null]")
        self.assertEqual((added, self.browser.errors()), ([0, None], []))

    def test_without_dot(self) -> None:
        self.put(self.head + turn(0, offer(3, ("BOOL", 1))) + turn(1) * 3 + turn(10, offer(1, ("INT", 6000))) + turn(11) * 9)
        with mock.patch.dict(os.environ, {"PATH": str(self.folder)}):
            running = Running(TANK, self.certificate, self.record)
        self.addCleanup(running.end)
        self.browser.open(f"http://127.0.0.1:{running.port}/")
        self.shows(True, "return document.getElementById('notices').textContent.includes('graphviz is not installed')")
        of_control = "[...document.getElementById('instances').rows].find((it) => it.cells[0].textContent === 'CONTROL')"
        self.shows("OPENED", f"return {of_control}?.cells[2].textContent ?? null")
        row = next(it for it in self.rows("instances") if it[0] == "CONTROL")
        self.assertEqual(row, ["CONTROL", "HYSTERESIS", "OPENED", "2", "LEVEL = 217, LOW = 300, HIGH = 700, ENABLED = TRUE, VALVE_OPEN = TRUE"])

    def test_events_that_come_too_fast(self) -> None:
        """The page says that it has missed some, and shows the state of now."""
        history = History()
        server = Server(("127.0.0.1", 0), history, dict)
        thread = threading.Thread(target=lambda: server.serve_forever(0.05))
        thread.start()
        self.addCleanup(thread.join)
        self.addCleanup(server.stop)
        self.browser.open(f"http://127.0.0.1:{server.server_address[1]}/")
        self.shows("live", "return document.getElementById('mode').textContent")
        denial = {"kind": "denied", "time": 1, "what": "INPUT 9", "code": 50, "why": "there is no such INPUT", "count": 1}
        history.add([{**denial, "number": it} for it in range(1, FURTHEST + 1002)])
        self.shows(f"{FURTHEST + 1001} events, {FURTHEST + 1001} denied", "return document.getElementById('sums').textContent")
        self.assertIn(f"{FURTHEST + 1001} events came faster than this page takes them", self.browser.text("notices"))
        self.assertEqual([it[3] for it in self.rows("denials")], [str(FURTHEST + 1001)])
        self.browser.press(LEFT)
        self.shows(str(FURTHEST + 1000), "return document.querySelector('#denials td:nth-child(4)').textContent")

    def test_a_server_that_has_gone(self) -> None:
        self.put(self.head + turn(0))
        page = Running(TANK, self.certificate, self.record)
        self.addCleanup(page.process.kill)
        self.browser.open(f"http://127.0.0.1:{page.port}/")
        self.shows("live", "return document.getElementById('mode').textContent")
        page.end()
        self.shows("not connected", "return document.getElementById('mode').textContent")
        self.assertIn("what is shown is old", self.browser.text("notices"))
        self.put(self.head + turn(0, offer(1, ("INT", 3000))) + turn(1) * 9)
        again = Running(TANK, self.certificate, self.record, port=page.port)
        self.addCleanup(again.end)
        self.shows_slot("LEVEL_SENSOR.RD_1: ", "3000")
        self.assertEqual(self.browser.text("mode"), "live")
        self.browser.errors()

    def test_light_and_dark(self) -> None:
        """Both can be read at a width of 1024; their pictures go into the folder SCREENSHOTS if there is one."""
        device = self.device()
        self.page()
        device.offer(3, ("BOOL", 1))
        device.offer(2, ("INT", 400), ("INT", 600))
        for value in (6000, 9000, 12000, 15000, 18000):
            device.offer(1, ("INT", value))
            time.sleep(0.2)
        device.offer(9, ("INT", 1))
        device.send(b"hello")
        self.shows_slot("MEASURING.SMOOTHING.MEAN: ", "488")
        self.shows(2, "return document.getElementById('denials').rows.length")
        self.browser.size(1024, 1160)
        pictures = {}
        for which, paper in (("light", "rgb(255, 255, 255)"), ("dark", "rgb(20, 23, 27)")):
            self.browser.colours(which)
            self.shows(paper, "return getComputedStyle(document.body).backgroundColor")
            pictures[which] = self.browser.screenshot()
            if folder := os.environ.get("SCREENSHOTS"):
                (pathlib.Path(folder) / f"page-{which}.png").write_bytes(pictures[which])
        self.assertNotEqual(pictures["light"], pictures["dark"])
        self.assertLessEqual(self.browser.run("return document.documentElement.scrollWidth"), 1024)
        texts = "[...document.querySelectorAll('#picture svg text')].filter((it) => it.textContent.trim())"
        self.assertGreater(self.browser.run(f"return Math.min(...{texts}.map((it) => it.getBoundingClientRect().height))"), 8)
        self.assertEqual(self.browser.errors(), [])

    def test_many_events(self) -> None:
        """10,000 events a minute, without the page growing or falling behind."""
        device, page = self.device(), self.page()
        device.offer(3, ("BOOL", 1))
        begun = time.monotonic()
        self.flood(device, begun, 10)
        elements, held, number = self.browser.elements(), self.browser.heap(), self.shown_number()
        self.assertEqual(len(self.rows("causes")), 50)
        begun = time.monotonic()
        self.flood(device, begun, 60 * MINUTES)
        came = self.shown_number() - number
        more_elements, more_bytes = self.browser.elements() - elements, self.browser.heap() - held
        server = self.resident(page)
        print(f"{came} events in {MINUTES} min: {elements} elements and {more_elements} more, {held} bytes and {more_bytes} more; server {server} kB")
        self.assertGreaterEqual(came, RATE * MINUTES)
        self.assertLessEqual(more_elements, MORE_ELEMENTS)
        self.assertLessEqual(more_bytes, MORE_BYTES)
        self.assertTrue(waited(lambda: page.snapshot()["last"] == self.shown_number()))
        self.assertEqual((self.browser.errors(), page.snapshot()["status"]["unknown"]), ([], 0))
        self.assertNotIn("were not shown", self.browser.text("notices"))
        self.assertLessEqual(len(self.rows("denials")), 50)

    def flood(self, device: Device, begun: float, seconds: int) -> None:
        """Offers levels for so long, each of which leads to seven events and more."""
        count = 0
        while (since := time.monotonic() - begun) < seconds:
            while count < since * 26:
                device.offer(1, ("INT", 137 * count % 27_000))
                count += 1
            time.sleep(0.02)

    def resident(self, page: Running) -> int:
        """How many kB the server holds."""
        with open(f"/proc/{page.process.pid}/status", encoding="ascii") as file:
            return next(int(it.split()[1]) for it in file if it.startswith("VmRSS"))


if __name__ == "__main__":
    unittest.main()
