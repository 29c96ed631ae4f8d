"""A call refused with each number, and what the number means.

python3 bindings/python/examples/refused.py, after tools/install target/installed
"""

import pathlib
import sys

sys.path.insert(0, str(pathlib.Path(__file__).resolve().parents[1]))
from esfenruk import SLOTS, HIGHEST_RANK, Element, Refused, Row, Store

REPORT = "AAXX 11061 40001 12360 62704 10103 20071 40132 60042="


def main() -> None:
    store = Store.open((2024, 4, 11), [(40001, Row.LOWLAND)])
    store.file(REPORT)
    calls = [
        lambda: store.file("AAXX"),
        lambda: store.file("aaxx="),
        lambda: store.file("="),
        lambda: store.file("AAXX 11062 40001 NIL="),
        lambda: store.file("AAXX 11061="),
        lambda: store.settle(40002),
        lambda: store.file("AAXX 11071 40001 12360 62704="),
        lambda: store.file(REPORT),
        lambda: Store.from_bytes(b"").settle(40001),
        lambda: Store.open((2024, 2, 30), [(40001, Row.LOWLAND)]),
        lambda: store.day(40001),
        lambda: store.cell(40001, Element.TEMPERATURE, SLOTS),
        lambda: store.file(REPORT, HIGHEST_RANK + 1),
        lambda: store.step(40001),
    ]
    for call in calls:
        try:
            call()
            sys.exit("a call was accepted")
        except Refused as refused:
            print(refused.refusal.value, refused.refusal.meaning)


if __name__ == "__main__":
    main()
