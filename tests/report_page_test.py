"""The recipe that makes a page about a folder's metafiles: what it says, that it needs nothing else, and how it looks in a browser."""

import base64
import hashlib
import html.parser
import http.server
import os
import pathlib
import shutil
import subprocess
import threading
import unittest
from collections import Counter

from built import DOT, ROOT, SAMPLES
from metafile.fields import u32
from recipe_commands import DRAWINGS, commands, draw
from recipes_test import RECIPES, RecipesTest, has_command, needs, png_pixels, waited

# Colours of the style: a fault in light, and the page in both.
BAD, LIGHT, DARK = bytes.fromhex("a3251d"), bytes.fromhex("f4f4f1"), bytes.fromhex("161716")

# Where the browser finds the page, by a proxy.
PAGE = "http://shop.example/page.html"

# Hosts that the browser asks on its own account.
ITS_OWN = ("google.com", "googleapis.com")

# The sides of windows. The rows are so few because the tests read each pixel.
WINDOWS = [(390, 600), (800, 300), (1400, 200)]

# A program that does as metaplay does, except for one command.
STUB = '#!/bin/sh\ncase $1 in {command}) {action} ;; esac\nexec ./program "$@"\n'


class Parts(html.parser.HTMLParser):
    """The parts of a page: its tags with their attributes, and the texts of the elements of each kind."""

    def __init__(self, text):
        super().__init__()
        self.tags, self.texts, self.open = [], [], []
        self.feed(text)
        self.close()

    def handle_starttag(self, tag, attrs):
        self.tags.append((tag, dict(attrs)))
        self.texts.append([tag, ""])
        self.open.append(self.texts[-1])

    def handle_endtag(self, tag):
        while self.open and self.open.pop()[0] != tag:
            pass

    def handle_data(self, data):
        for element in self.open:
            element[1] += data

    def all(self, kind):
        """The texts of elements of a kind."""
        return [text for tag, text in self.texts if tag == kind]


class ReportRecipe(RecipesTest):
    """A folder with drawings."""

    def setUp(self):
        super().setUp()
        if not has_command("info"):
            self.skipTest("the program has no command info")
        draw(self.folder)

    def page(self, *words, wanted=0, **settings):
        """The text of the page about the folder of drawings."""
        status, out, err = self.run_words(RECIPES / "report", *words, "drawings", **settings)
        self.assertEqual(status, wanted, err)
        return out.decode()

    def stub(self, command, action):
        """Has the program do something else for one command."""
        (self.folder / "metaplay").rename(self.folder / "program")
        (self.folder / "metaplay").write_text(STUB.format(command=command, action=action))
        (self.folder / "metaplay").chmod(0o755)


class Report(ReportRecipe):
    """What the page says."""

    def test_the_command_on_the_page(self):
        [command] = commands("A page with pictures")
        self.assertEqual(self.run_words("sh", "-c", command), (0, b"", b""))
        parts = Parts((self.folder / "report.html").read_text(encoding="utf-8"))
        # Rejected files come first. A line feed of a name is shown as an escape.
        names = [name.replace("\n", "\\n") for wanted in (False, True) for name in sorted(DRAWINGS) if DRAWINGS[name][1] is wanted]
        self.assertEqual(parts.all("h2"), names)
        self.assertEqual(parts.all("label"), ["All 6", "Rejected 2", "Not checked 0", "Accepted 4"])
        self.assertIn("Unsupported META_EXTTEXTOUT 1", parts.all("li"))
        self.assertIn("under the print profile", parts.all("header")[0])

    def test_what_to_tell_the_sender(self):
        text = self.page()
        self.assertIn("<p>An object is deleted while it is selected, now or in a saved state.</p>", text)
        self.assertIn("<b>What to do:</b> Its program should first select another object, or a stock object.", text)
        self.assertIn("<b>What metaplay-fixup mends:</b> most: text,", text)
        self.assertIn("<dt>Size on paper</dt><dd>271.0 × 271.0 mm</dd>", text)
        self.assertIn("<dt>Record</dt><dd>5</dd>", text)
        self.assertNotIn("HeldObject", self.page("--profile", "print", "--allow", "held-deletion"))

    def test_the_texts_of_an_installation(self):
        # Beside the pages, and without them.
        recipes = shutil.copytree(RECIPES, self.folder / "share" / "metaplay" / "recipes")
        command = [recipes / "report", "drawings"]
        self.assertNotIn(b"What to do", self.run_words(*command)[1])
        pages = self.folder / "share" / "doc" / "metaplay"
        pages.mkdir(parents=True)
        for name in ("FAULTS.md", "FORMATS.md"):
            shutil.copy(ROOT / "docs" / name, pages)
        self.assertIn(b"What to do", self.run_words(*command)[1])
        self.assertEqual(sorted(path.name for path in recipes.iterdir()), sorted(path.name for path in RECIPES.iterdir()))

    def test_each_fault_of_a_file_and_each_note_has_its_text(self):
        asked = "import pathlib, report_texts; texts = report_texts.Texts.read(pathlib.Path()); print(len(texts.faults), *sorted(texts.notes))"
        ended = subprocess.run(["/usr/bin/python3", "-B", "-c", asked], cwd=RECIPES, capture_output=True, text=True, check=True)
        notes = "AfterEnd DashedPen EmfPlus Isotropic PlaceableChecksum PlaceableFields SizeField Skipped WidePen"
        self.assertEqual(ended.stdout, f"35 {notes}\n")

    def test_the_program_and_the_title_of_a_picture(self):
        text = "A <program>\0A title\0\0".encode("utf-16-le")
        data = (SAMPLES / "polygons.emf").read_bytes()
        size = int.from_bytes(data[4:8], "little")
        # The header's sizes, and where its description is ([MS-EMF] 2.2.9).
        head = data[:4] + u32(size + len(text)) + data[8:48] + u32(len(data) + len(text)) + data[52:60] + u32(len(text) // 2, size) + data[68:size]
        (self.folder / "drawings" / "described.emf").write_bytes(head + text + data[size:])
        parts = Parts(self.page())
        self.assertEqual([told for told in parts.all("div") if told.startswith(("Program", "Title"))], ["ProgramA <program>", "TitleA title"])

    def test_pictures_are_those_of_show(self):
        sources = [it["src"] for tag, it in Parts(self.page("--side", "40")).tags if tag == "img"]
        told = Counter(png_pixels(base64.b64decode(source.removeprefix("data:image/png;base64,"))) for source in sources)
        wanted = Counter()
        for data, _ in (it for it in DRAWINGS.values() if it[1]):
            _, sides, _, pixels = self.run_words("./metaplay", "show", "stdin", "40", "40", "--fit", given=data)[1].split(b"\n", 3)
            wanted[(*map(int, sides.split()), pixels)] += 1
        self.assertEqual(told, wanted)

    def test_nothing_else_is_needed(self):
        text = self.page()
        parts = Parts(text)
        self.assertEqual({tag for tag, _ in parts.tags} & {"script", "link", "iframe", "object", "embed", "base", "form", "a"}, set())
        for tag, attributes in parts.tags:
            for name, value in attributes.items():
                self.assertFalse(name.startswith("on") or name == "style", (tag, name))
                self.assertTrue(name not in ("href", "srcset", "action") and (name != "src" or value.startswith("data:image/png;")), (tag, name))
        [style] = parts.all("style")
        self.assertNotRegex(style, r"url\(|@import")
        [rule] = [it["content"] for _, it in parts.tags if it.get("http-equiv") == "Content-Security-Policy"]
        digest = base64.b64encode(hashlib.sha256(style.encode()).digest()).decode()
        self.assertEqual(rule, f"default-src 'none'; img-src data:; style-src 'sha256-{digest}'; base-uri 'none'; form-action 'none'")

    def test_odd_names_are_text(self):
        for name in (b"<script>alert(1)</script>.wmf".replace(b"/", b"|"), b"caf\xe9 &amp; \x1b[1m.emf", "left\u202eright.wmf".encode()):
            (self.folder / "drawings" / os.fsdecode(name)).write_bytes(DOT)
        parts = Parts(self.page())
        for name in ("<script>alert(1)<|script>.wmf", "caf\\xe9 &amp; \\x1b[1m.emf", "left\\u202eright.wmf", 'quoted "name" <b>.wmf'):
            self.assertIn(name, parts.all("h2"))
        self.assertEqual(parts.all("script"), [])
        self.assertIn("Not checked: the name is not UTF-8", parts.all("p"))

    def test_a_picture_that_takes_long_is_stopped(self):
        self.stub("show", "echo $$ >>processes; exec sleep 60")
        parts = Parts(self.page("--seconds", "0.5"))
        self.assertEqual(parts.all("p").count("The picture was stopped after 0.5 seconds."), 4)
        self.assertIn("Pictures that were stopped, because they took too long: 4", parts.all("p"))
        for process in (self.folder / "processes").read_text().split():
            self.assertTrue(waited(lambda: not pathlib.Path(f"/proc/{process}").exists()))

    def test_a_program_that_fails(self):
        self.stub("show", "echo full >&2; exit 4")
        self.assertEqual(Parts(self.page()).all("p").count("No picture: full."), 4)
        (self.folder / "metaplay").write_text(STUB.format(command="info", action="kill -9 $$"))
        parts = Parts(self.page())
        self.assertEqual(parts.all("p").count("Not checked: metaplay ended with the status -9"), 6)
        self.assertIn("no-program", self.run_words(RECIPES / "report", "drawings", METAPLAY="no-program")[2].decode())

    def test_wrong_usage(self):
        for words in ("", "a b", "--profile paper a", "--allow held-deletion a", "--seconds 0 a", "--side 1025 a"):
            self.assertEqual(self.run_words(RECIPES / "report", *words.split())[:2], (2, b""), words)
        self.assertEqual(self.run_words(RECIPES / "report", "no folder"), (3, b"", b"report: not a folder: no folder\n"))
        with open("/dev/full", "wb") as full:
            streams = {"stdout": full, "stderr": subprocess.DEVNULL}
            ended = subprocess.run([RECIPES / "report", "drawings"], **streams, cwd=self.folder, env=self.settings, check=False)
        self.assertEqual(ended.returncode, 3)


class Server(http.server.ThreadingHTTPServer):
    """A proxy for all of a browser's requests, which has one page, and remembers what was asked for."""

    def __init__(self, page):
        super().__init__(("127.0.0.1", 0), Requests)
        self.page, self.asked = page, []


class Requests(http.server.BaseHTTPRequestHandler):
    """A request to the proxy."""

    def do_GET(self):
        self.server.asked.append(self.path)
        is_page = self.path == PAGE
        self.send_response(200 if is_page else 404)
        self.send_header("Content-Type", "text/html; charset=utf-8")
        self.end_headers()
        self.wfile.write(self.server.page if is_page else b"")

    def do_CONNECT(self):
        self.server.asked.append(self.path)
        self.send_error(502)

    do_POST = do_CONNECT

    def log_message(self, *words):
        pass


@needs("chromium")
class Looks(ReportRecipe):
    """The page in a browser."""

    def looked_at(self, page, sides=(390, 100), is_dark=False):
        """The pixels of a page in a window of these sides, and what it asked for but itself."""
        server = Server(page.encode())
        threading.Thread(target=server.serve_forever, daemon=True).start()
        self.addCleanup(server.server_close)
        words = ["--headless", "--disable-gpu", "--hide-scrollbars", "--no-first-run", "--disable-background-networking", "--disable-sync"]
        words += ["--no-sandbox"] * (os.geteuid() == 0) + [f"--user-data-dir={self.folder}/browser", "--disable-component-update"]
        words += [f"--proxy-server=http://127.0.0.1:{server.server_address[1]}", "--proxy-bypass-list=<-loopback>", "--screenshot=shot.png"]
        words += [f"--window-size={sides[0]},{sides[1]}", f"--blink-settings=preferredColorScheme={0 if is_dark else 1}"]
        self.run_words("chromium", *words, PAGE)
        server.shutdown()
        hosts = {path: path.partition("?")[0].split("://")[-1].split("/")[0].split(":")[0] for path in server.asked}
        asked = {path for path, host in hosts.items() if not host.endswith(ITS_OWN)}
        self.assertIn(PAGE, asked)
        return png_pixels((self.folder / "shot.png").read_bytes()), sorted(asked - {PAGE})

    def test_three_widths_in_light_and_dark(self):
        page = self.page()
        for width, height in WINDOWS:
            for is_dark in (False, True):
                with self.subTest(width=width, is_dark=is_dark):
                    (*sides, pixels), asked = self.looked_at(page, (width, height), is_dark)
                    self.assertEqual((sides, asked), ([width, height], []))
                    # Nothing reaches the edges, so nothing has to be scrolled sideways.
                    edges = {pixels[3 * place :][:3] for y in range(height) for place in (y * width, y * width + width - 1)}
                    self.assertEqual(edges, {DARK if is_dark else LIGHT})

    def test_the_choice_of_a_verdict_needs_no_script(self):
        page = self.page()
        for chosen, is_there in (("all", True), ("rejected", True), ("accepted", False)):
            checked = page.replace(" checked", "").replace(f'id="show-{chosen}"', f'id="show-{chosen}" checked')
            (_, _, pixels), _ = self.looked_at(checked, (390, 600))
            self.assertEqual(any(pixels[at : at + 3] == BAD for at in range(0, len(pixels), 3)), is_there, chosen)

    def test_a_page_that_asks_for_something_is_noticed(self):
        page = '<!DOCTYPE html><img src="http://elsewhere.example/a.png"><link rel="stylesheet" href="a.css">'
        asked = self.looked_at(page)[1]
        self.assertEqual(asked, ["http://elsewhere.example/a.png", "http://shop.example/a.css", "http://shop.example/favicon.ico"])


if __name__ == "__main__":
    unittest.main()
