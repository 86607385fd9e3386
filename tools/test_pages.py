"""The page of a report, in Chromium without a window: what is drawn, opened, searched for and told."""
import os
import random
import tempfile
import time
import unittest

import browser
from p4tools import page, tape, told
from p4tools.report import read_reports
from p4tools.scenario import Maker
from test_commands import run
from test_scenarios import EXAMPLES, bytes_of

try:
    from PIL import Image
except ImportError:
    Image = None

PACKETS, BATCHES, ROUTES = 100_000, 20, 40
LANES = ("w0", "w1", "w2")
# The first 34 bytes of an IPv4 packet up to its destination.
HEAD = bytes.fromhex("02000000000a0200000000010800" "45000014000000004001" "0000" "0a000001")


def great():
    """A tape and its report by the router's rules: routes 10.x.0.0/16 to port 1 + x mod 8 with a batch after each 5,000 packets
    that moves ten routes a port on; what is not routed is dropped. Checksums stay as they came."""
    maker, dice = Maker(lambda name: bytes_of(name)), random.Random(7)
    records, lines, counts = [], [], {}
    calls = ["arbitrate election=1", "config verify_and_commit programs/router.p4info.txt programs/router.json"]
    calls += [f"insert ipv4_lpm dst=10.{it}.0.0/16 route(port={1 + it % 8}, mac=02:00:00:00:00:{it:02x})" for it in range(ROUTES)]
    for number, call in enumerate(calls, 1):
        records += maker.take(call)
        lines.append(f"step {number} 0 {number} {('arbitrate 0', 'commit 0')[number - 1] if number < 3 else 'change 1'}\nreply 0 {number} {number} 0 .")
    ports, steps, packets, sent = {it: 1 + it % 8 for it in range(ROUTES)}, len(calls), {it: [] for it in LANES}, []
    known = [(dice.randrange(ROUTES + 10), dice.randrange(256)) for _ in range(400)]
    for batch in range(BATCHES):
        for _ in range(PACKETS // BATCHES):
            lane, (x, y) = dice.randrange(3), known[dice.randrange(len(known))]
            data = HEAD + bytes([10, x, y, 1])
            records.append(tape.Record(tape.PACKET, lane, (lane + 20).to_bytes(2, "big") + data))
            what = "drop1 - - - -"
            if x < ROUTES:
                left = bytes.fromhex(f"0200000000{x:02x}" "02000000000a") + data[12:22] + bytes([data[22] - 1]) + data[23:]
                what = f"sent {ports[x]}:{left.hex()} - - 33554434:{x + 1}"
                counts[x] = counts.get(x, 0) + 1
            packets[LANES[lane]].append(f"{steps} {what}")
            sent.append((LANES[lane], x, y, ports.get(x)))
        moved = range(batch, batch + 10)
        ports.update({it: 1 + ports[it] % 8 for it in moved})
        for line in ["batch dataplane_atomic", *[f"modify ipv4_lpm dst=10.{it}.0.0/16 route(port={ports[it]}, mac=02:00:00:00:00:{it:02x})"
                                                 for it in moved], "end"]:
            records += maker.take(line)
        steps += 1
        lines.append(f"step {steps} 0 {steps} batch 10\nreply 0 {steps} {steps} 0 .")
    for lane in LANES:
        lines += [f"packet {lane} {number} {it}" for number, it in enumerate(packets[lane], 1)]
    lines += [f"count {it + 1} 33554434 {counts.get(it, 0)} {34 * counts.get(it, 0)}" for it in range(ROUTES)]
    return tape.write_tape(records), "\n".join([*lines, f"end {steps} {PACKETS}", ""]), sent


class WithBrowser(unittest.TestCase):
    @classmethod
    def setUpClass(cls):
        if not browser.PROGRAM:
            why = "pages are not tested: apt-get install -y chromium"
            print(f"tools/test: {why}", flush=True)
            raise unittest.SkipTest(why)
        cls.folder = tempfile.TemporaryDirectory()
        cls.addClassCleanup(cls.folder.cleanup)
        cls.browser = browser.Browser()
        cls.addClassCleanup(cls.browser.close)

    def path(self, name):
        return os.path.join(self.folder.name, name)

    def told(self):
        return self.browser.value("document.getElementById('detail').innerText")

    def ask(self, script):
        return self.browser.value(script)

    def tearDown(self):
        self.assertEqual(self.browser.errors(), [])


class Great(WithBrowser):
    @classmethod
    def setUpClass(cls):
        super().setUpClass()
        data, text, cls.sent = great()
        beside = told.Beside(data)
        made = page.page_of(read_reports(text, "great"), beside, "A great report")
        with open(os.path.join(cls.folder.name, "great.html"), "w", encoding="utf-8") as it:
            it.write(made)

    def setUp(self):
        self.browser.open(self.path("great.html"))

    def test_it_is_alone_and_fluent(self):
        """Nothing comes from elsewhere, there is no node a packet, and a picture takes a fraction of a second."""
        with open(self.path("great.html"), encoding="utf-8") as it:
            text = it.read()
        for word in ("http://", "https://", "src=", "@import", "url("):
            self.assertNotIn(word, text)
        self.assertEqual(self.ask("document.getElementById('figures').textContent"), "62 calls, 62 steps, 100,000 packets")
        self.assertLess(self.ask("document.querySelectorAll('*').length"), 3000)
        # (the least of some, since a machine that has other work stops a picture on its way)
        least = "Math.min(...Array.from({length: 9}, () => { const began = performance.now(); picture.draw(); return performance.now() - began; }))"
        for zoom in ("picture.fit()", "picture.zoom(0.5)", "picture.zoom(3.9)", "picture.zoom(34)"):
            self.assertLess(self.ask(f"{zoom}; {least}"), 400, zoom)

    def test_found(self):
        """Search and filters find what they name, in the numbers that the packets were made in."""
        def number(fits):
            return sum(fits(*it) for it in self.sent)
        cases = [
            ({"search": "10.7.%d.1" % self.sent[0][2]}, None),
            ({"lane": "w1"}, number(lambda lane, x, y, port: lane == "w1")),
            ({"port": "3"}, number(lambda lane, x, y, port: port == 3)),
            ({"port": "21"}, number(lambda lane, x, y, port: lane == "w1")),
            ({"table": "ipv4_lpm"}, number(lambda lane, x, y, port: x < ROUTES)),
            ({"fate": "dropped"}, number(lambda lane, x, y, port: x >= ROUTES)),
            ({"fate": "sent", "lane": "w2", "port": "5"}, number(lambda lane, x, y, port: lane == "w2" and port == 5)),
            ({"search": "w2 packet 17"}, 1),
            ({"search": "dropped by the program"}, number(lambda lane, x, y, port: x >= ROUTES))]
        lane, x, y, _ = self.sent[5]
        cases.append(({"search": f"> 10.{x}.{y}.1 ", "lane": lane}, number(lambda *it: it[:3] == (lane, x, y))))
        for given, wanted in cases:
            with self.subTest(given):
                self.ask("byId('filters').reset(); " + "".join(f"byId('{name}').value = '{text}'; " for name, text in given.items()))
                began = time.monotonic()
                found = self.ask("search(); byId('found').textContent")
                self.assertLess(time.monotonic() - began, 8)
                if wanted is not None:
                    self.assertIn(f"{wanted:,} packet{'s' * (wanted != 1)},", found)

    def test_a_batch(self):
        """A batch is opened with the mouse: each packet ran before it or behind it, and it stands so in the picture."""
        self.ask("picture.zoom(12); picture.move(report.stepColumns[50] - 40); picture.draw()")
        place = self.ask("(() => { const box = byId('timeline').getBoundingClientRect(), at = report.stepColumns[50];"
                         " return [box.x + picture.x(at), box.y + picture.y(report.lane[at])]; })()")
        self.browser.click(*place)
        text = self.told()
        self.assertIn("c0 call 51\n", text)
        self.assertIn("batch dataplane_atomic of 10 updates: OK, step 51 batch of 10", text)
        self.assertIn("Step 51, a batch of 10 in one: 45,000 packets ran wholly before it, 55,000 packets wholly behind it.", text)
        self.assertTrue(self.ask("(() => { const at = report.stepColumns[50]; for (let it = 0; it < report.order.length; it++) {"
                                 " if (report.isPacket(it) && (report.packets.after[report.order[it] / 2] >= 51) !== (it > at)) return false; }"
                                 " return true; })()"))

    def test_entries(self):
        """An entry's hits are found from the table of entries."""
        number = max(range(ROUTES), key=lambda it: sum(x == it for _, x, _, _ in self.sent))
        hits = sum(x == number for _, x, _, _ in self.sent)
        self.assertIn(f"ipv4.dst=10.{number}.0.0/16\t{hits:,}\t{34 * hits:,}\t{hits:,}", self.ask("document.querySelector('#entries tr').innerText"))
        self.ask("document.querySelector('#entries button').click()")
        self.assertIn(f"{hits:,} packets, 0 calls found", self.ask("byId('found').textContent"))

    def test_keys(self):
        """The page is used without a mouse."""
        self.ask("byId('timeline').focus()")
        for keys, wanted in ((["Home"], "c0 call 1\n"), (["ArrowRight", "ArrowRight"], "c0 call 3\n"), (["End"], "c0 call 62\n"),
                             (["ArrowLeft"], " packet "), (["Home", "ArrowDown"], "w0 packet 1\n"), (["ArrowUp"], "c0 call")):
            for key in keys:
                self.browser.press(key)
            self.assertIn(wanted, self.told(), keys)
        self.browser.press("ArrowRight", browser.SHIFT)
        self.assertIn("c0 call 43\n", self.told())
        before = self.ask("picture.per")
        self.browser.press("+")
        self.assertGreater(self.ask("picture.per"), before)
        self.browser.press("0")
        self.assertEqual(self.ask("picture.per"), self.ask("picture.farthest"))
        self.browser.press("Enter")
        self.assertEqual(self.ask("document.activeElement.id"), "detail")
        self.browser.press("Escape")
        self.assertEqual(self.ask("document.activeElement.id"), "timeline")
        self.browser.press("/")
        self.assertEqual(self.ask("document.activeElement.id"), "search")
        self.browser.write("w1 packet 3")
        self.browser.press("Enter")
        self.assertIn("w1 packet 3\n", self.told())
        self.assertIn("1 packet, 0 calls found", self.ask("byId('found').textContent"))


class Walks(WithBrowser):
    def open(self, name, *words):
        status, _, said = run("p4tape", "page", name + ".report", "--tape", name + ".tape", "-o", self.path("walk.html"), *words)
        self.assertEqual(status, 0, said)
        self.browser.open(self.path("walk.html"))

    def test_a_packet(self):
        """A mark opens what entered, where it left, what was changed and which entry it hit."""
        self.open("operator/routes")
        self.ask("open([...report.order.keys()].find((it) => report.nameOf(it) === 'w0 packet 6'))")
        text = self.told()
        for wanted in ("w0 packet 6\n", "behind step 6 change of c0 call 6 insert ipv4_lpm", "before step 7 change of c0 call 7",
                       "Entered at port 2", "Ether / IP / UDP 192.0.2.1:50000 > 10.1.200.3:50001 / Raw, 47 bytes",
                       "sent to port 1 with Ethernet.dst 02:00:00:00:00:01, Ethernet.src 02:00:00:00:00:0a, IP.ttl 63, IP.chksum 0xe7c5",
                       "ipv4_lpm ipv4.dst=10.0.0.0/8"):
            self.assertIn(wanted, text)
        self.assertEqual(self.ask("[...document.querySelectorAll('#detail mark')].map((it) => it.textContent).join(' ')"), "01 0a 3f e7")

    def test_each_walk(self):
        for name in ("operator/routes", "paths/paths", "laboratory/version-1", "laboratory/version-2"):
            with self.subTest(name):
                self.open(name)
                one = read_reports(bytes_of(name + ".report").decode(), name)[0]
                self.assertEqual(self.ask("report.order.length"), len(one.calls) + len(one.packets))
                self.assertEqual(self.ask("foundColumns.length"), len(one.calls) + len(one.packets))

    def seen(self, scheme):
        """The colours of a screenshot, by place, and the places and colours that the page means."""
        self.browser.media(scheme=scheme)
        self.open("operator/routes")
        self.assertEqual(self.ask("document.documentElement.dataset.theme"), scheme)
        self.ask("picture.draw()")
        self.browser.picture(self.path("seen.png"))
        with Image.open(self.path("seen.png")) as it:
            image = it.convert("RGB")
        places = self.ask("(() => { const box = byId('timeline').getBoundingClientRect(); return [...report.order.keys()].map((it) =>"
                          " [Math.round(box.x + picture.x(it)), Math.round(box.y + picture.y(report.lane[it])), KINDS[report.kind[it]]]); })()")
        colours = {name: tuple(bytes.fromhex(value[1:])) for name, value in self.ask("colours()").items()}
        return image, places, colours

    def test_what_is_seen(self):
        """Marks have their kinds' colours at their places, and the batch's line goes through all lanes between the packets before it
        and those behind it, in dark and in light."""
        if Image is None:
            self.skipTest("apt-get install -y python3-pil")
        for scheme in ("dark", "light"):
            with self.subTest(scheme):
                image, places, colours = self.seen(scheme)
                self.assertEqual(sum(kind == "sent" for _, _, kind in places), 12)
                for x, y, kind in places:
                    self.assertEqual(image.getpixel((x, y)), colours[kind], (x, y, kind))
                # (the batch is the eighth call, behind eight packets)
                line, between = places[15][0], [(places[15][1] + places[16][1]) // 2, places[16][1] + 16]
                for y in between:
                    self.assertEqual(image.getpixel((line, y)), colours["step"])
                self.assertEqual([x < line for x, _, kind in places if kind == "sent"], [True] * 8 + [False] * 4)

    def test_printed(self):
        """In print it is light, without what only a screen needs, and a PDF comes of it."""
        self.browser.media(scheme="dark")
        self.open("paths/paths")
        self.ask("window.dispatchEvent(new Event('beforeprint'))")
        self.assertEqual(self.ask("document.documentElement.dataset.theme"), "light")
        self.ask("window.dispatchEvent(new Event('afterprint'))")
        self.assertEqual(self.ask("document.documentElement.dataset.theme"), "dark")
        self.browser.media("print", "dark")
        for it in ("byId('theme')", "byId('detail')", "byId('search').parentElement"):
            self.assertEqual(self.ask(f"getComputedStyle({it}).display"), "none")
        self.ask("byId('search').value = 'port'; open(0)")
        for it in ("byId('detail')", "byId('search').parentElement"):
            self.assertNotEqual(self.ask(f"getComputedStyle({it}).display"), "none")
        self.assertTrue(self.browser.printed().startswith(b"%PDF"))
        self.browser.media()

    def test_lists(self):
        """What was found is a list of buttons, which a reader of screens reads."""
        self.open("operator/routes")
        self.ask("byId('search').value = 'u10'; search(); document.querySelector('#list button').click()")
        self.assertIn("c0 call 9\n", self.told())
        self.assertIn("NOT_FOUND, rule U10: it is not there", self.told())
        self.assertIn("0 packets, 1 call found", self.ask("byId('found').textContent"))
        self.assertEqual(self.ask("byId('detail').getAttribute('aria-live')"), "polite")

    def test_other_reports(self):
        """Several devices, packets of free lanes, packets for controllers, and an empty report."""
        made = ("device 1\nstep 1 0 1 batch 2\nstep 2 0 1 change 1\nreply 0 1 2 0 -\npacket w0 1 1 sent - 0:0a0e0000000000020000000000010800 - -\n"
                "packet w0 2 0 drop2 - - - -\npacket w0 3 2 drop3 - - - @7\ncell 7 301989889 3 1 40\nend 2 3\ndevice 2\nend 0 0\n")
        text = page.page_of(read_reports(made, "it"), told.Beside(), "<b>devices</b> & </script>")
        with open(self.path("other.html"), "w", encoding="utf-8") as it:
            it.write(text)
        self.browser.open(self.path("other.html"))
        self.assertEqual(self.ask("document.querySelector('h1').textContent"), "<b>devices</b> & </script>")
        self.assertEqual(self.ask("[...report.order.keys()].map((it) => report.nameOf(it))"),
                         ["w0 packet 2", "c0 call 1", "w0 packet 1", "c0 call 1", "w0 packet 3"])
        self.assertEqual(self.ask("[...report.kind].join()"), "1,3,2,3,1")
        self.ask("byId('device').value = '1'; byId('device').dispatchEvent(new Event('change'))")
        self.assertEqual(self.ask("byId('figures').textContent"), "0 calls, 0 steps, 0 packets")


class Words(unittest.TestCase):
    def test_wrong_files(self):
        for words, said in ((["no.report", "--tape", "no.tape"], "is not read"), (["README.md", "--tape", "no.tape"], "README.md"),
                            (["operator/routes.report", "--tape", "operator/routes.report"], "the tape beside the report")):
            status, _, told_to = run("p4tape", "page", *words, "-o", "/dev/null")
            self.assertEqual(status, 2)
            self.assertIn(said, told_to)
        self.assertTrue(os.path.isdir(EXAMPLES))


if __name__ == "__main__":
    unittest.main()
