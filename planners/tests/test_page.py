"""`page`: what stands in the file, and what a browser makes of it: the map, clicks, choices and sorting."""

from __future__ import annotations

import json
import re
import shutil
import tempfile
import time
import unittest
from dataclasses import replace
from decimal import Decimal
from pathlib import Path
from unittest import SkipTest

from .helper import INSTANCES, InFolder, lacks

if lacks("numpy"):
    raise SkipTest(lacks("numpy"))

from .networks import made
from planning.alternatives import Alternatives, Line
from planning.page import page_text
from planning.program import Verdict

DRIVER = shutil.which("chromedriver")
CHROMIUM = shutil.which("chromium") or shutil.which("chromium-browser")
MOST_BYTES = 6_000_000


def no_browser() -> str:
    """Why no browser can be had; empty where one can."""
    if lacks("selenium"):
        return lacks("selenium") + " (Debian: python3-selenium)"
    return "" if DRIVER and CHROMIUM else "no chromium and chromedriver (Debian: chromium, chromium-driver)"


def data_of(page: str) -> dict:
    """What the script of a page works with."""
    return json.loads(re.search(r'<script id="data" type="application/json">(.*?)</script>', page, re.DOTALL)[1])


class Districts(InFolder):
    """Pages of ten districts with names of their own, in one folder for all tests, which change nothing there."""

    names = [f"District {i}" for i in range(1, 9)] + ['</script><b>"Nine"&', "Zehn <ß>"]

    @classmethod
    def setUpClass(cls) -> None:
        """Solves the districts, and writes their page and tables."""
        held = tempfile.TemporaryDirectory()
        cls.addClassCleanup(held.cleanup)
        cls.folder = Path(held.name)
        shutil.copy(INSTANCES / "districts.txt", cls.folder)
        lines = ['"' + name.replace('"', '""') + '"\n' for name in cls.names]
        (cls.folder / "names.csv").write_text("name\n" + "".join(lines), encoding="utf-8")
        words = ["ap", "districts.txt", "--divide=1000", "--tail=fixed"]
        cls.words = [*words[:2], "districts.cert", *words[2:], "--names", "names.csv"]
        test = cls()
        test.solve("districts.cert", *words)
        for script, more in (("page", ["--title", "Ten <b>&", "--out", "page.html"]), ("network", ["--out", "tables"])):
            ended = test.script(script, *cls.words, *more)
            test.assertEqual((ended.returncode, ended.stdout, ended.stderr), (0, "", ""))

    def setUp(self) -> None:
        """Makes no folder of its own."""


class Texts(Districts):
    """What can be seen without a browser."""

    def test_the_file_needs_nothing_beside_itself(self) -> None:
        page = self.read("page.html")
        self.assertEqual(re.findall(r'(?:src|href)="(?!data:)', page), [])
        self.assertEqual([text for text in re.findall(r"https?://[^\s\"']*", page) if "www.w3.org" not in text], [])
        self.assertIn("<h1>Ten &lt;b&gt;&amp;</h1>", page)
        self.assertIn("Proved optimal: this network costs 14,900.184…, and none costs less.", page)
        self.assertIn('<code id="line">optimal 14900.184295750000</code>', page)
        self.assertIn("hub check ap districts.txt districts.cert --tail=fixed --divide=1000", page)
        self.assertEqual(page.count("</script>"), 2)

    def test_numbers_are_those_of_the_tables(self) -> None:
        data = data_of(self.read("page.html"))
        self.assertEqual(data["names"], self.names)
        hubs = len(data["hubs"])
        ways = [[divmod(int(word), hubs) for word in row.split()] for row in data["ways"]]
        for row in self.table("tables/routes.csv"):
            i, j = int(row["origin"]) - 1, int(row["destination"]) - 1
            self.assertEqual([str(data["hubs"][k] + 1) for k in ways[i][j]], [row["first_hub"], row["last_hub"]])
            self.assertEqual(Decimal(data["flows"][i].split()[j]), Decimal(row["flow"]))
            self.assertEqual(Decimal(data["costs"][i].split()[j]), Decimal(row["cost"]))

    def test_what_is_refused(self) -> None:
        files = sorted(self.folder.iterdir())
        self.assert_fault(
            self.script("page", *self.words, "--out", "page.htm"),
            "page: --out wants a name that ends in .html, found 'page.htm'",
        )
        ended = self.script("page", *self.words, "--collect=2", "--out", "other.html")
        self.assert_fault(ended, "page: districts.cert: hub check did not accept this certificate: no Cost 105")
        self.assertEqual(files, sorted(self.folder.iterdir()))

    def test_a_bound_below_the_cost(self) -> None:
        named, places = made(5, 2)
        cost = named.verdict.cost
        page = page_text(replace(named, verdict=Verdict(cost, cost - cost // 8)), places, "", "", "hub check")
        self.assertIn('id="verdict" class="bounds"', page)
        self.assertIn("; the gap is 12.5 % of the cost.", page)
        self.assertEqual(data_of(page)["gap"], "12.5 %")

    def test_sizes(self) -> None:
        for size, hubs in ((25, 4), (200, 30)):
            named, places = made(size, hubs)
            self.assertLess(len(page_text(named, places, "", "", "hub check").encode()), MOST_BYTES)


@unittest.skipIf(no_browser(), no_browser())
class InABrowser(Districts):
    """The page of the districts, opened in a browser without a window."""

    @classmethod
    def setUpClass(cls) -> None:
        """Starts the browser."""
        from selenium import webdriver
        from selenium.webdriver.chrome.options import Options
        from selenium.webdriver.chrome.service import Service

        super().setUpClass()
        options = Options()
        options.binary_location = CHROMIUM
        for word in ("--headless=new", "--no-sandbox", "--disable-gpu", "--disable-dev-shm-usage"):
            options.add_argument(word)
        options.add_argument("--window-size=1400,1000")
        options.set_capability("goog:loggingPrefs", {"browser": "ALL"})
        cls.browser = webdriver.Chrome(service=Service(DRIVER), options=options)
        cls.addClassCleanup(cls.browser.quit)

    def setUp(self) -> None:
        """Opens the page."""
        self.browser.get((self.folder / "page.html").as_uri())

    def find(self, words: str) -> list:
        """The elements of a selector."""
        return self.browser.find_elements("css selector", words)

    def rows(self, table: str) -> list[list[str]]:
        """The cells of a table, numbers with all digits."""
        script = (
            "return [...document.querySelectorAll(arguments[0] + ' tbody tr')].map((row) =>"
            " [...row.cells].map((cell) => (cell.title || cell.textContent).replaceAll(',', '')))"
        )
        return self.browser.execute_script(script, table)

    def click(self, node: int) -> None:
        """Clicks on a place of the map."""
        self.find(f'[data-node="{node}"]')[0].click()

    def told(self, node: int) -> list[list[str]]:
        """The routes of a place as `network` writes them."""
        rows = [row for row in self.table("tables/routes.csv") if row["origin"] == str(node)]
        names = ("destination_name", "first_hub_name", "last_hub_name")
        return [[*(row[name] for name in names), row["flow"], row["cost"]] for row in rows]

    def assert_rows(self, found: list[list[str]], wanted: list[list[str]], texts: int) -> None:
        """The rows are the same: so many texts, and then numbers."""
        self.assertEqual([row[:texts] for row in found], [row[:texts] for row in wanted])
        self.assertEqual(
            [[Decimal(cell) for cell in row[texts:]] for row in found],
            [[Decimal(cell) for cell in row[texts:]] for row in wanted],
        )

    def test_it_opens_without_an_error(self) -> None:
        for node in (1, 5):
            self.click(node)
        self.assertEqual(self.browser.get_log("browser"), [])
        self.assertEqual(self.browser.title, "Ten <b>&")
        self.assertEqual(len(self.find("#picture [data-node]")), 10)
        self.assertEqual({text.text for text in self.find("#picture text")}, set(self.names))
        self.assertRegex(self.find("#amounts")[0].text, "total 14,900.1.*\\sbound 14,900.1.*\\sgap 0 %")

    def test_a_click_shows_routes_and_loads(self) -> None:
        for node in (1, 5):
            self.click(node)
            self.assert_rows(self.rows("#routes"), self.told(node), 3)
        hub = next(row for row in self.table("tables/hubs.csv") if row["node"] == "5")
        loads = [row[1] for row in self.rows("#loads")]
        self.assertEqual(
            [Decimal(cell) for cell in loads],
            [Decimal(hub[key]) for key in ("collected_flow", "delivered_flow", "fixed_cost")],
        )
        trunks = [row for row in self.table("tables/trunks.csv") if "5" in (row["from"], row["to"])]
        keys = ("from_name", "to_name", "flow", "cost")
        self.assert_rows(self.rows("#loads-trunks"), [[row[key] for key in keys] for row in trunks], 2)
        self.click(5)
        self.assertEqual(self.find("#routes"), [])

    def test_tables_can_be_sorted(self) -> None:
        keys = ("from_name", "to_name", "flow", "cost")
        wanted = [[row[key] for key in keys] for row in self.table("tables/trunks.csv")]
        self.assert_rows(self.rows("#trunk-table"), wanted, 2)
        head = self.find("#trunk-table th button")[3]
        for down in (True, False):
            head.click()
            wanted.sort(key=lambda row: Decimal(row[3]), reverse=down)
            found = [Decimal(row[3]) for row in self.rows("#trunk-table")]
            self.assertEqual(found, [Decimal(row[3]) for row in wanted])
        hubs = [row["name"] for row in self.table("tables/hubs.csv")]
        self.assertEqual([row[0] for row in self.rows("#hub-table")], hubs)

    def test_origins_and_the_pointer(self) -> None:
        from selenium.webdriver.common.action_chains import ActionChains
        from selenium.webdriver.support.ui import Select

        origins = Select(self.find("#chosen")[0])
        for place in (0, 6):
            origins.select_by_index(place)
        wanted = [[self.names[i], *row] for i in (0, 6) for row in self.told(i + 1)]
        self.assert_rows(self.rows("#routes"), wanted, 4)
        self.assertRegex(self.find("#told")[0].text, "what 2 of 10 places send, for [0-9,.]+")
        self.find("#all")[0].click()
        self.assertEqual(self.find("#routes"), [])
        ActionChains(self.browser).move_to_element(self.find('[data-node="9"]')[0]).perform()
        until = time.monotonic() + 5
        while not self.find("#pointer")[0].text and time.monotonic() < until:
            time.sleep(0.05)
        self.assertTrue(self.find("#pointer")[0].text.startswith(self.names[8] + "\nflow out "))

    def test_what_was_asked(self) -> None:
        named, places = made(10, 3)
        cost = named.verdict.cost
        dearer, least = cost + cost // 8, cost + cost // 16
        lines = [
            Line("without", 0, "accepted", cost=dearer, bound=dearer, hubs=frozenset({1, 2, 5})),
            Line("without", 1, "no network for it"),
            Line("with", 4, "accepted", cost=dearer, bound=least, hubs=frozenset({0, 1, 4})),
        ]
        page = self.folder / "asked.html"
        text = page_text(replace(named, existing=frozenset({2, 7})), places, "", "", "", Alternatives(named, lines))
        page.write_text(text, encoding="utf-8")
        self.browser.get(page.as_uri())
        self.assertEqual(self.browser.get_log("browser"), [])
        hubs = self.rows("#hub-table")
        self.assertRegex(hubs[0][4], "^rise [0-9.]+$")
        self.assertEqual([row[5] for row in hubs], ["opens Place 5", "no network for it", ""])
        further = self.rows("#further-table")
        self.assertEqual((further[0][0], further[0][2].partition(" at least")[0]), ("Place 4", "not proved:"))
        self.assertTrue(further[0][2].endswith("; closes Place 2"))
        self.assertEqual(len(self.find("#picture .exists")), 2)

    def test_names_at_three_sizes(self) -> None:
        for size, hubs, least in ((10, 3, 10), (25, 4, 25), (200, 12, 60)):
            named, places = made(size, hubs)
            page = self.folder / f"{size}.html"
            page.write_text(page_text(named, places, "", "", "hub check"), encoding="utf-8")
            self.browser.get(page.as_uri())
            self.assertEqual(self.browser.get_log("browser"), [])
            boxes = self.browser.execute_script(
                "return [...document.querySelectorAll('#picture text')].map((text) => {"
                " const box = text.getBoundingClientRect(); return [box.left, box.top, box.right, box.bottom]; })"
            )
            self.assertGreaterEqual(len(boxes), least)
            # Letters may touch, but no name lies on another one.
            for first in boxes:
                over = [
                    other
                    for other in boxes
                    if min(first[2], other[2]) - max(first[0], other[0]) > 3
                    and min(first[3], other[3]) - max(first[1], other[1]) > 5
                ]
                self.assertEqual(over, [first])
