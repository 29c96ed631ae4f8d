"""What the README and the header say beside the module: calls, refusals, units."""

import pathlib
import re
import sys
import unittest

HERE = pathlib.Path(__file__).resolve().parent
REPOSITORY = HERE.parents[2]
sys.path.insert(0, str(HERE.parent))
import esfenruk
from esfenruk import Element, Refusal, Store

README = (REPOSITORY / "README.md").read_text(encoding="utf-8")
HEADER = (REPOSITORY / "include" / "esfenruk.h").read_text(encoding="utf-8")

#: A call of the README with its refusals in the order of their tests.
CALLS = re.findall(r"^\| `(\w+)\(.*?\)` \| .*? \| (.*?) ?\|$", README, re.M)
#: A refusal of the README: number, name, meaning, the calls that give it.
REFUSALS = re.findall(r"^\| (\d{1,2}) \| (\w+) \| (.*?) \| (.*?) \| \S", README, re.M)


def numbers(words):
    """The numbers of a text such as "9, 13 (above 24), 1 to 7", in order."""
    spans = re.findall(r"(\d+)(?: to (\d+))?", re.sub(r"\([^)]*\)", "", words))
    return [number for first, last in spans for number in range(int(first), int(last or first) + 1)]


class Readme(unittest.TestCase):
    def test_calls(self):
        """As the first line of each method has them, behind its colon."""
        said = {name: numbers(getattr(Store, name).__doc__.splitlines()[0].partition(": ")[2]) for name in esfenruk._ARGUMENTS}
        self.assertEqual({name: numbers(words) for name, words in CALLS}, {**said, "vapour_table": []})

    def test_refusals(self):
        ours = [(str(refusal.value), refusal.name.title().replace("_", ""), refusal.meaning) for refusal in Refusal]
        self.assertEqual([(number, name, meaning.replace("`", "")) for number, name, meaning, _ in REFUSALS], ours)

    def test_who_gives_them(self):
        for number, _, _, calls in REFUSALS:
            givers = {name for name, words in CALLS if int(number) in numbers(words)}
            self.assertEqual(set(re.findall(r"`(\w+)`", calls)), givers, number)

    def test_the_lines_in_python(self):
        lines = re.findall(r"^    ((?:import|store|print).*)$", README, re.M)
        self.assertEqual(len(lines), 5)
        exec("\n".join(lines), {"print": lambda warmest: self.assertEqual(warmest, 0)})


class Header(unittest.TestCase):
    def test_units(self):
        """`NAME = 0, /* T, unit */`, where the words before the last comma say more, and those behind a semicolon."""
        found = re.findall(r"ESFENRUK_(\w+) = \d,? +/\* (\w), (?:[^;*]*, )?([^;,*]*?)(?:;.*)? \*/", HEADER)
        units = [(name, letter, re.sub("a degree( Celsius)?", "°C", unit)) for name, letter, unit in found]
        self.assertEqual(units, [(element.name, element.letter, element.unit) for element in Element])


if __name__ == "__main__":
    unittest.main()
