"""The printed day of the paper: one report filed, the station settled, its day line printed.

python3 bindings/python/examples/day.py, after tools/install target/installed
"""

import datetime
import pathlib
import sys

sys.path.insert(0, str(pathlib.Path(__file__).resolve().parents[1]))
import esfenruk

STATION = 40001


def main() -> None:
    store = esfenruk.Store.open(datetime.date(2024, 4, 11), [(STATION, esfenruk.Row.LOWLAND)])
    store.file("AAXX 11061 40001 12360 62704 10103 20071 40132 60042=")
    store.settle(STATION)
    line = store.day(STATION)
    numbers = [line.rain, line.warmest, line.coldest, line.read, line.corrected, line.filled, line.missing]
    print(f"{STATION:05}", *("-" if number is None else number for number in numbers))


if __name__ == "__main__":
    try:
        main()
    except esfenruk.Refused as refused:
        sys.exit(str(refused))
