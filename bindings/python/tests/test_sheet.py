"""The page of a day: the stored one, every input of tests/dayline, odd texts.

python3 bindings/python/tests/test_sheet.py, after tools/install target/installed. Where the page is to be another, write it anew:
python3 bindings/python/examples/sheet.py crates/dayline/stdin > bindings/python/examples/sheet.html
"""

import pathlib
import subprocess
import sys
import unittest
import xml.etree.ElementTree as xml
from decimal import Decimal
from html.parser import HTMLParser

PYTHON = pathlib.Path(__file__).resolve().parents[1]
ROOT = PYTHON.parents[1]
sys.path[:0] = [str(PYTHON), str(PYTHON / "examples")]
import sheet
from esfenruk import Cell, Element, Flag, Kind, Mean, Refusal, Refused, State, hour

EXAMPLE = ROOT / "crates/dayline/stdin"
STORED = PYTHON / "examples/sheet.html"
#: Every input of dayline with the lines that it prints of it.
INPUTS = [(path, path.with_suffix(".out").read_text().splitlines()) for path in sorted((ROOT / "tests/dayline").glob("*.in"))]


def words(element: xml.Element) -> str:
    """What stands in an element of the page."""
    return "".join(element.itertext())


def page(data: bytes) -> xml.Element:
    """The page of an input: its markup is XML too, so that what is not closed is an error."""
    return xml.fromstring(sheet.sheet(data))


def refused_rows(data: bytes) -> list:
    """Place, refusal and text of each report refused, as the page has them."""
    return [[words(cell) for cell in row] for row in page(data).findall(".//section[@id='refused']//tbody/tr")]


class Tags(HTMLParser):
    """The tags of a page, as a browser reads them."""

    def __init__(self) -> None:
        super().__init__()
        self.names, self.links, self.ids = set(), [], []

    def handle_starttag(self, tag, attrs):
        attributes = dict(attrs)
        self.names.add(tag)
        self.links += [attributes[key] for key in ("href", "src", "xmlns") if key in attributes]
        self.ids += [attributes["id"]] if "id" in attributes else []


class Example(unittest.TestCase):
    """The page of the example day."""

    def test_is_the_stored_one(self):
        command = [sys.executable, str(PYTHON / "examples/sheet.py"), str(EXAMPLE)]
        self.assertEqual(subprocess.run(command, stdout=subprocess.PIPE, check=True).stdout, STORED.read_bytes())

    def test_reads_standard_input(self):
        command = [sys.executable, str(PYTHON / "examples/sheet.py")]
        got = subprocess.run(command, input=EXAMPLE.read_bytes(), stdout=subprocess.PIPE, check=True).stdout
        self.assertEqual(got, STORED.read_bytes())

    def test_stands_by_itself(self):
        text = STORED.read_text(encoding="utf-8")
        tags = Tags()
        tags.feed(text)
        self.assertFalse(tags.names & {"script", "link", "img", "iframe", "object", "use", "image"})
        for word in ("http", "@import", "url(", "javascript"):
            self.assertNotIn(word, text)
        self.assertEqual(len(tags.ids), len(set(tags.ids)))
        self.assertLessEqual({link[1:] for link in tags.links}, set(tags.ids))
        self.assertEqual({link[0] for link in tags.links}, {"#"})

    def test_reports_stand_by_their_slots(self):
        """Each accepted report in the row of its hour, and all of them."""
        data = EXAMPLE.read_bytes()
        day = sheet.read_day(data)
        rows = page(data).findall(".//table[@class='reports']/tbody/tr")
        texts = [words(code).split() for row in rows for code in row.findall("td/div/code")]
        self.assertEqual(len(texts), day.accepted)
        self.assertEqual(texts, [report.text.decode().split() for station in day.stations for report in station.reports])
        for row in rows:
            for code in row.findall("td/div/code"):
                self.assertEqual(words(code).split()[1][2:4], words(row[0]))

    def test_nil_is_named(self):
        named = [words(row) for row in page(EXAMPLE.read_bytes()).iter("div") if "NIL" in words(row) and row.get("class") is None]
        self.assertEqual(named, ["NIL, no values AAXX 11121 41000 NIL="])

    def test_names_a_missing_file(self):
        command = [sys.executable, str(PYTHON / "examples/sheet.py"), str(PYTHON / "none.in")]
        got = subprocess.run(command, stdout=subprocess.PIPE, stderr=subprocess.PIPE)
        self.assertNotEqual(got.returncode, 0)
        self.assertEqual((got.stdout, got.stderr.count(b"\n")), (b"", 1))


class Inputs(unittest.TestCase):
    """Every input of dayline gives the day lines, the values and the refused reports that dayline and the calls give."""

    def expected_line(self, day, station, line):
        """The day line in words, made from a line that dayline printed."""
        number, rain, warmest, coldest, *counts = line.split()
        self.assertEqual(f"{station.number:05}", number)
        values = station.cells[Element.TEMPERATURE]
        yield "no total" if rain == "-" else f"{rain[:-1] or 0}.{rain[-1]}\u00a0mm"
        for slot in (warmest, coldest):
            if slot == "-":
                yield "no temperature"
            else:
                date = day.date if int(slot) < 6 else sheet.slot_date(day.date, 8)
                degrees = str(Decimal(values[int(slot)].value) / 10).replace("-", "\u2212")
                degrees += "" if "." in degrees else ".0"
                yield f"{hour(int(slot)):02} UTC on {date.day} {date:%B}, {degrees}\u00a0°C"
        yield "{} read, {} corrected, {} filled, {} missing".format(*counts)

    def check_values(self, section, station):
        """Each value of the table is the cell's."""
        rows = section.findall(".//table[@class='values']/tbody/tr")
        for element, row in zip(Element, rows):
            for slot, cell in enumerate(row.findall("td")):
                held = station.cells[element][slot]
                text = words(cell.find("span"))
                if held.humidity is not None:
                    self.assertEqual(text, f"{held.humidity}\u00a0%")
                elif held.value is None:
                    self.assertEqual(text, "\u2013")
                else:
                    scale = 1 if element == Element.CLOUD else 10
                    self.assertEqual(Decimal(text.replace("\u2212", "-")) * scale, held.value)
        self.assertEqual((len(rows), len(section.findall(".//table[@class='values']/tbody/tr/td"))), (9, 81))

    def check_means(self, section, station):
        """Each mean is the line's, in its unit."""
        line = station.line
        means = [line.temperature, line.dew_point, line.pressure, line.wind_speed, line.cloud, line.vapour_pressure]
        decimals = [1, 1, 1, 1, 0, 2]
        entries = section.findall("dl[@class='means']/div/dd")
        self.assertEqual(len(entries), len(means))
        for entry, mean, scale in zip(entries, means, decimals):
            if mean.value is None:
                self.assertEqual(words(entry), "absent")
            else:
                number, _, kind = words(entry).replace("\u2212", "-").replace("\u00a0", " ").split(" ")
                self.assertEqual((Decimal(number) * 10**scale, kind.upper()), (Decimal(mean.value), mean.kind.name))

    def check_extremes(self, section, station):
        """The warmest and the coldest hour are marked at T, and nowhere else."""
        rows = section.findall(".//table[@class='values']/tbody/tr")
        cells = [(place, slot, cell) for place, row in enumerate(rows) for slot, cell in enumerate(row[1:])]
        found = {words(mark): (place, slot) for place, slot, cell in cells for mark in cell.findall("abbr[@class='extreme']")}
        line = {"▲": station.line.warmest, "▼": station.line.coldest}
        self.assertEqual(found, {mark: (0, slot) for mark, slot in line.items() if slot is not None})

    def check(self, path, printed):
        """The page of an input whose first line opens a store."""
        data = path.read_bytes()
        day, root = sheet.read_day(data), page(data)
        sections = root.findall(".//section[@class='station']")
        self.assertEqual((len(day.stations), len(sections)), (len(printed) - 1, len(printed) - 1))
        for station, section, line in zip(day.stations, sections, printed):
            shown = [words(entry) for entry in section.findall("dl[@class='whole']/div/dd")]
            self.assertEqual(shown, list(self.expected_line(day, station, line)))
            self.check_means(section, station)
            self.check_values(section, station)
            self.check_extremes(section, station)
        self.assertEqual(f"refused {len(root.findall('.//section[@id=%r]//tbody/tr' % 'refused'))}", printed[-1])

    def test_as_dayline_has_them(self):
        for path, printed in INPUTS:
            with self.subTest(path.name):
                if printed != ["open 10"]:
                    self.check(path, printed)

    def test_what_cannot_be_opened(self):
        paths = [path for path, printed in INPUTS if printed == ["open 10"]]
        self.assertTrue(paths)
        for path in paths:
            with self.subTest(path.name):
                self.assertIn(str(Refused(Refusal.UNOPENABLE)), words(page(path.read_bytes())))

    def test_there_are_inputs(self):
        self.assertGreater(len(INPUTS), 100)


class FirstLine(unittest.TestCase):
    """First lines beside those of tests/dayline."""

    def test_alone(self):
        root = page(b"2024 2 28 40001 0")
        self.assertEqual(len(root.findall(".//section[@class='station']")), 1)
        self.assertIn("29 February", words(root))
        self.assertIn("None.", words(root))

    def test_numbers_of_any_length(self):
        zeros = b"0" * 9000
        self.assertIn("Station 40001", words(page(b"2024 2 28 " + zeros + b"40001 0\n")))
        for line in (b"2024 2 28 4" + zeros + b" 0", b"2024 2 28 40001 1" + zeros, b"9" * 9000, b"1 " * 9001):
            self.assertIn("refused 10", words(page(line)))

    def test_not_in_pairs(self):
        for line in (b"2024 2 28", b"2024 2 28 40001 0 40002", b"2024\t2 28 40001 0", b"2024 2 28 40001 0\x0b"):
            self.assertIn("refused 10", words(page(line)))

    def test_is_shown_escaped(self):
        self.assertIn("2024 4 11 <b>&\"'\u2039FF\u203a", words(page(b"2024 4 11 <b>&\"'\xff\n")))


class Texts(unittest.TestCase):
    """Texts of the input that are no reports."""

    def refused(self, text):
        return refused_rows(b"2024 4 11 40001 0\n" + text)

    def test_markup_is_escaped(self):
        text = b"<b>&\"</b><script>alert(1)</script>"
        self.assertEqual(self.refused(text + b"=")[0][2], text.decode() + "=")
        self.assertNotIn("<script", sheet.sheet(b"2024 4 11 40001 0\n" + text))

    def test_every_byte_is_seen(self):
        shown = [self.refused(b"A" + bytes([byte]) + b"Z")[0][2][1:-1] for byte in range(256) if byte != ord("=")]
        self.assertEqual(len(set(shown)), 255)
        self.assertEqual([text for text in shown if not text.isprintable()], ["\n"])

    def test_tails(self):
        self.assertEqual([len(self.refused(tail)) for tail in (b"", b" \r\n", b"\t", b"\x0b", b"==\n", b"=\n=X")], [0, 0, 1, 1, 2, 3])

    def test_a_long_text_is_cut(self):
        self.assertEqual(self.refused(b"X" * 600)[0][2], "X" * sheet.SHOWN + f" … and {600 - sheet.SHOWN} more bytes")
        self.assertEqual(self.refused(b"X" * 512)[0][2], "X" * 512)

    def test_place_number_and_meaning(self):
        meaning = Refusal.ORDER.meaning
        self.assertEqual(self.refused(b"AAXX 11061 40001 NIL=\nAAXX 11061="), [["2", f"5 {meaning}", "AAXX 11061="]])


class Shown(unittest.TestCase):
    """Numbers in units, and the marks of cells."""

    def test_numbers_are_exact(self):
        eighths = [sheet.exact(-5.125, decimals) for decimals in (1, 0, 2)]
        self.assertEqual(eighths, ["\u22120.5125", "\u22125.125", "\u22120.05125"])
        amounts = [sheet.amount(number, sheet.UNITS[Element.RAIN]) for number in (0, -120, 10120.0)]
        self.assertEqual(amounts, ["0.0\u00a0mm", "\u221212.0\u00a0mm", "1012.0\u00a0mm"])

    def test_means_say_how_they_came_about(self):
        unit = sheet.UNITS[Element.PRESSURE]
        for mean, text in ((Mean(Kind.ABSENT, None), "absent"), (Mean(Kind.MENDED, 10120.5), "1012.05\u00a0hPa mended")):
            self.assertEqual(words(xml.fromstring(f"<p>{sheet.mean_words(mean, unit)}</p>")), text)

    def test_no_two_kinds_of_cell_look_alike(self):
        """By the mark beside the value, without any colour, and by the point."""
        states = [(State.READ, Flag.NONE), (State.READ, Flag.SUSPECT), (State.CORRECTED, Flag.TIME), (State.HUMIDITY, Flag.NONE)]
        doubts = [(state, flag) for state in (State.MISSING, State.FILLED) for flag in (Flag.NONE, *sheet.WHY)]
        looks = [sheet.look(Cell(state, flag, None)) for state, flag in states + doubts]
        self.assertEqual([look.mark for look in looks], ["", "s", "c", "h", "", "×r", "×i", "×t", "f", "fr", "fi", "ft"])
        self.assertEqual(len({look.words for look in looks}), len(looks))
        self.assertEqual(len(set(sheet.POINTS.values())), len(sheet.POINTS))

    def test_no_line_across_a_gap(self):
        there, gone, humidity = Cell(State.READ, Flag.NONE, 5), Cell(State.MISSING, Flag.NONE, None), Cell(State.HUMIDITY, Flag.NONE, None, 5)
        cells = [there, there, gone, there, humidity, there, there, there, gone]
        self.assertEqual(list(sheet.runs(cells)), [[0, 1], [3], [5, 6, 7]])
        drawing = sheet.curve(Element.DEW_POINT, cells, sheet.scale([5], 100))
        self.assertEqual((drawing.count("<polyline"), drawing.count("<path")), (2, 6))

    def test_scales_have_their_values(self):
        for values in ([0], [5], [-1], [-400, 480], [9200, 10800], [0, 5000], [-32767, 32767], [10112, 10132]):
            scale = sheet.scale(values, 100)
            self.assertTrue(scale.low <= min(values) and max(values) <= scale.high, values)
            self.assertTrue(1 <= (scale.high - scale.low) // scale.step <= sheet.STEPS, values)
            self.assertEqual(((scale.high - scale.low) % scale.step, scale.step % 10), (0, 0))


if __name__ == "__main__":
    unittest.main()
