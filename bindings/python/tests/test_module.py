"""The calls from Python: what the binding itself does beside handing them on."""

import copy
import ctypes
import dataclasses
import datetime
import doctest
import pathlib
import pickle
import re
import sys
import unittest

HERE = pathlib.Path(__file__).resolve().parent
REPOSITORY = HERE.parents[2]
sys.path.insert(0, str(HERE.parent))
import esfenruk
from esfenruk import Cell, Element, Flag, Kind, Mean, Refusal, Refused, Row, State, Store, Tally

DATE = datetime.date(2024, 4, 11)
STATION = 40001


def opened() -> Store:
    return Store.open(DATE, [(STATION, Row.LOWLAND)])


def report(slot: int, groups: str) -> str:
    """A report for a slot, with these groups after Nddff."""
    return f"AAXX {11 if slot < 6 else 12}{esfenruk.hour(slot):02}1 {STATION} 42360 62704 {groups}="


class Calls(unittest.TestCase):
    def refuses(self, refusal, call, *arguments):
        with self.assertRaises(Refused) as raised:
            call(*arguments)
        self.assertEqual(raised.exception.refusal, refusal)
        self.assertEqual(str(raised.exception), f"refused {refusal.value}: {refusal.meaning}")

    def test_the_examples_of_the_module(self):
        self.assertEqual(doctest.testmod(esfenruk).failed, 0)

    def test_a_whole_day(self):
        store = opened()
        for slot in range(esfenruk.SLOTS):
            store.file(report(slot, f"10{100 + slot:03} 20071 40132 60012"))
        store.settle(STATION)
        line = store.day(STATION)
        self.assertEqual(line.temperature, Mean(Kind.READ, 103.5))
        self.assertEqual(line.dew_point, Mean(Kind.READ, 71.0))
        self.assertEqual(line.pressure, Mean(Kind.READ, 10132.0))
        self.assertEqual(line.wind_speed, Mean(Kind.READ, 40.0))
        self.assertEqual(line.cloud, Mean(Kind.READ, 6.0))
        self.assertEqual(line.vapour_pressure, Mean(Kind.READ, float(esfenruk.vapour_table()[571])))
        self.assertEqual((line.rain, line.warmest, line.coldest), (20, 7, 0))
        self.assertEqual((line.read, line.corrected, line.filled, line.missing), (63, 0, 0, 18))

    def test_cells_in_every_state(self):
        store = opened()
        for slot, groups in enumerate(["10060 29067", "11070", "10080", "20050", "10090 20060", "10999"]):
            store.file(report(slot, groups))
        store.settle(STATION)
        for element, slot, cell in [
            (Element.TEMPERATURE, 0, Cell(State.READ, Flag.NONE, 60)),
            (Element.TEMPERATURE, 1, Cell(State.CORRECTED, Flag.TIME, 70)),
            (Element.TEMPERATURE, 3, Cell(State.FILLED, Flag.NONE, 85)),
            (Element.TEMPERATURE, 5, Cell(State.MISSING, Flag.RANGE, None)),
            (Element.DEW_POINT, 0, Cell(State.HUMIDITY, Flag.NONE, None, 67)),
            (Element.RAIN, 0, Cell(State.MISSING, Flag.NONE, None)),
        ]:
            self.assertEqual(store.cell(STATION, element, slot), cell)
        line = store.day(STATION)
        self.assertEqual(line.temperature, Mean(Kind.ABSENT, None))
        self.assertEqual((line.rain, line.warmest, line.coldest), (None, 4, 0))

    def test_a_mended_mean(self):
        store = opened()
        for slot in range(8):
            store.file(report(slot, "" if slot == 3 else f"10{100 + slot:03}"))
        store.settle(STATION)
        self.assertEqual(store.day(STATION).temperature, Mean(Kind.MENDED, 103.5))

    def test_portions_come_to_what_settle_does(self):
        store = opened()
        store.file(report(0, "10100"))
        other = Store.from_bytes(bytes(store))
        store.settle(STATION)
        other.begin(STATION)
        for _ in range(4):
            self.refuses(Refusal.NOT_SETTLED, other.day, STATION)
            other.step(STATION)
        self.assertEqual(bytes(store), bytes(other))

    def test_a_bulletin(self):
        text = f"AAXX 11061 {STATION} 42360 62704= {STATION} 42360 62704= 49999 NIL= \n"
        self.assertEqual(opened().bulletin(text), Tally(1, 2))
        self.assertEqual(opened().bulletin(text.encode(), 3), Tally(1, 2))
        self.refuses(Refusal.SHAPE, opened().bulletin, "BBXX 11061 40001 NIL=")

    def test_amended_reports(self):
        store = opened()
        store.file(report(0, "10100"))
        store.file(bytearray(report(0, "10110").encode()), 2)
        self.refuses(Refusal.RANK, store.file, report(0, "10120"), 1)
        store.settle(STATION)
        self.assertEqual(store.cell(STATION, Element.TEMPERATURE, 0).value, 110)

    def test_a_number_without_room_is_refused(self):
        store = opened()
        for number in [-1, 1 << 32, (1 << 32) + STATION, -(1 << 80)]:
            self.refuses(Refusal.UNKNOWN_STATION, store.settle, number)
            self.refuses(Refusal.RANK, store.file, report(0, ""), number)
            self.refuses(Refusal.UNOPENABLE, Store.open, DATE, [(number, Row.LOWLAND)])
            self.refuses(Refusal.UNOPENABLE, Store.open, (number, 4, 11), [(STATION, Row.LOWLAND)])
        for number in [-1, 1 << 16, 1 << 32]:
            self.refuses(Refusal.UNOPENABLE, Store.open, DATE, [(STATION, number)])
        store.settle(STATION)
        for number in [-1, 9, 1 << 32]:
            self.refuses(Refusal.NO_CELL, store.cell, STATION, number, 0)
            self.refuses(Refusal.NO_CELL, store.cell, STATION, 0, number)

    def test_what_is_no_number_and_no_text(self):
        for call in [lambda: opened().settle(40001.0), lambda: opened().file(5), lambda: opened().file(None)]:
            self.assertRaises(TypeError, call)

    def test_texts_of_any_characters(self):
        for text in ["AAXX é=", "AAXX \udc80=", b"AAXX \0=", "AAXX \0="]:
            self.refuses(Refusal.UNKNOWN_BYTE, opened().file, text)
        self.refuses(Refusal.UNENDED, opened().file, "")
        self.refuses(Refusal.UNENDED, opened().file, b"")

    def test_stores_of_any_length(self):
        for count in range(1, 33):
            store = Store.open(DATE, [(number, number % 2) for number in range(1, count + 1)])
            store.settle(count)
            self.refuses(Refusal.UNSOUND, Store.from_bytes(bytes(store)[:-1]).settle, 1)
        for count in [0, 33]:
            self.refuses(Refusal.UNOPENABLE, Store.open, DATE, [(number + 1, 0) for number in range(count)])
        self.refuses(Refusal.UNSOUND, Store.from_bytes(b"").settle, 1)

    def test_a_refusal_changes_no_byte(self):
        store = opened()
        store.file(report(0, "10100"))
        before = bytes(store)
        self.refuses(Refusal.FILED, store.file, report(0, "10110"))
        self.refuses(Refusal.NOT_UNDER_WAY, store.step, STATION)
        self.assertEqual(bytes(store), before)

    def test_copies_have_bytes_of_their_own(self):
        store = opened()
        before = bytes(store)
        copies = [copy.copy(store), copy.deepcopy(store), pickle.loads(pickle.dumps(store)), Store.from_bytes(before)]
        for other in copies:
            self.assertEqual(other, store)
            other.file(report(0, "10100"))
            self.assertNotEqual(other, store)
        self.assertEqual(bytes(store), before)

    def test_from_the_bytes_of_any_buffer(self):
        data = bytes(opened())
        for buffer in [bytearray(data), memoryview(data), memoryview(data).cast("H")]:
            self.assertEqual(bytes(Store.from_bytes(buffer)), data)
        self.assertRaises(TypeError, Store.from_bytes, 726)
        self.assertRaises(TypeError, Store.from_bytes, list(data))

    def test_a_call_keeps_the_lock(self):
        """`PyDLL` does, so that threads share a store; no `CDLL` is one."""
        self.assertIsInstance(esfenruk._library, ctypes.PyDLL)

    def test_hours(self):
        self.assertEqual([esfenruk.hour(slot) for slot in range(esfenruk.SLOTS)], [6, 9, 12, 15, 18, 21, 0, 3, 6])
        for slot in [-1, esfenruk.SLOTS]:
            self.assertRaises(ValueError, esfenruk.hour, slot)
        self.assertRaises(TypeError, esfenruk.hour, 2.0)

    def test_means_have_no_order(self):
        self.assertRaises(TypeError, max, [Mean(Kind.READ, 1.0), Mean(Kind.READ, 2.0)])

    def test_the_vapour_table(self):
        table = esfenruk.vapour_table()
        self.assertEqual((len(table), table[0], table[500], table[600], table[-1]), (1001, 6, 612, 1229, 12419))


class Names(unittest.TestCase):
    """The names and numbers of the header, and the version."""

    def setUp(self):
        self.header = (REPOSITORY / "include" / "esfenruk.h").read_text(encoding="utf-8")

    def test_enumerations(self):
        pairs = {f"ESFENRUK_{name}": int(number) for name, number in re.findall(r"^    ESFENRUK_(\w+) = (\d+),?", self.header, re.M)}
        prefixes = {Refusal: "REFUSED", Row: "ROW", Element: "", State: "STATE", Flag: "FLAG", Kind: "MEAN"}
        ours = {
            "_".join(filter(None, ("ESFENRUK", prefix, member.name))): member.value
            for kind, prefix in prefixes.items()
            for member in kind
        }
        tally = {f"ESFENRUK_REPORTS_{field.name.upper()}": number for number, field in enumerate(dataclasses.fields(Tally))}
        self.assertEqual({**ours, **tally}, pairs)

    def test_meanings(self):
        cases = re.findall(r'case ESFENRUK_REFUSED_(\w+):\s+return\s+"([^"]*)";', self.header)
        self.assertEqual({refusal.name: refusal.meaning for refusal in Refusal}, dict(cases))

    def test_constants(self):
        for name in ["ORDINARY", "HIGHEST_RANK", "STATIONS", "SLOTS", "VAPOUR_TABLE"]:
            self.assertIn(f"#define ESFENRUK_{name} {getattr(esfenruk, name)}\n", self.header)

    def test_what_an_import_of_all_brings(self):
        own = {name for name, what in vars(esfenruk).items() if getattr(what, "__module__", "") == "esfenruk" or name.isupper()}
        self.assertEqual(set(esfenruk.__all__), {name for name in own if not name.startswith("_")})

    def test_version(self):
        self.assertIn(f'#define ESFENRUK_VERSION "{esfenruk.__version__}"', self.header)

    def test_calls(self):
        calls = set(re.findall(r"^uint32_t esfenruk_(\w+)\(", self.header, re.M))
        self.assertEqual(calls, set(esfenruk._ARGUMENTS) | {"vapour_table"})
        self.assertTrue(all(hasattr(Store, name) for name in esfenruk._ARGUMENTS))


if __name__ == "__main__":
    unittest.main()
