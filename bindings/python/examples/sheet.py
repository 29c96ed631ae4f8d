"""A day to look at: an input of the program dayline as one HTML page, for whoever has to explain a doubtful day.

    python3 bindings/python/examples/sheet.py [INPUT] > page.html

after tools/install target/installed; standard input where no file is named. The page has for each station its day line in words and
units, the checked values with how each came about, curves, and the reports; then the reports refused. It needs no other file.
"""

import argparse
import datetime
import html
import itertools
import pathlib
import re
import sys
from decimal import Decimal
from typing import Callable, Dict, Iterator, List, NamedTuple, Optional, Sequence, Tuple, Union

sys.path.insert(0, str(pathlib.Path(__file__).resolve().parents[1]))
from esfenruk import SLOTS, Cell, DayLine, Element, Flag, Mean, Refusal, Refused, Row, State, Store, hour

# ---- the day: the input read as dayline reads it

#: Year, month and day, then 1 to 32 pairs: how many numbers a first line may have.
NUMBERS = range(5, 68, 2)
BLANKS = b" \r\n"


class Report(NamedTuple):
    """An accepted report; its text is as it was filed."""

    station: int
    slot: int
    nil: bool
    text: bytes


class RefusedReport(NamedTuple):
    """A refused report, and which one of the input it is."""

    place: int
    refusal: Refusal
    text: bytes


class Station(NamedTuple):
    """A station after the day."""

    number: int
    row: Row
    line: DayLine
    cells: Dict[Element, List[Cell]]
    reports: List[Report]


class Day(NamedTuple):
    """A day after all its reports."""

    date: datetime.date
    stations: List[Station]
    accepted: int
    refused: List[RefusedReport]


def first_numbers(line: bytes) -> List[int]:
    """The numbers of the first line, the date's three and two for each station; refused 10 where it is not made of these."""
    words = line.split()
    if line.translate(None, b"0123456789 \r") or len(words) not in NUMBERS:
        raise Refused(Refusal.UNOPENABLE)
    # Ten digits are more than any store takes; Python reads a text of thousands of them as no number.
    return [int(word.lstrip(b"0")[:10] or b"0") for word in words]


def cut(reports: bytes) -> List[bytes]:
    """The reports, each cut after its `=`; a tail is one too, unless it is blank."""
    *whole, tail = reports.split(b"=")
    return [text + b"=" for text in whole] + ([tail] if tail.strip(BLANKS) else [])


def accepted(text: bytes, date: datetime.date) -> Report:
    """What an accepted report names: its second word is the day of the month and the hour, its third the station."""
    words = text.rstrip(b"=").split()
    day, utc = int(words[1][:2]), int(words[1][2:4])
    slot = next(slot for slot in range(SLOTS) if (slot_date(date, slot).day, hour(slot)) == (day, utc))
    return Report(int(words[2]), slot, words[3] == b"NIL", text)


def filed(store: Store, date: datetime.date, texts: Sequence[bytes]) -> Tuple[List[Report], List[RefusedReport]]:
    """Files the reports in order: those accepted and those refused."""
    good: List[Report] = []
    bad: List[RefusedReport] = []
    for place, text in enumerate(texts, 1):
        try:
            store.file(text)
        except Refused as refused:
            bad.append(RefusedReport(place, refused.refusal, text))
        else:
            good.append(accepted(text, date))
    return good, bad


def settled(store: Store, number: int, row: int, reports: Sequence[Report]) -> Station:
    """A station, settled."""
    store.settle(number)
    cells = {element: [store.cell(number, element, slot) for slot in range(SLOTS)] for element in Element}
    own = [report for report in reports if report.station == number]
    return Station(number, Row(row), store.day(number), cells, own)


def read_day(data: bytes) -> Day:
    """The day of an input; refused 10 where the first line cannot open a store."""
    line, _, rest = data.partition(b"\n")
    numbers = first_numbers(line)
    pairs = list(zip(numbers[3::2], numbers[4::2]))
    store = Store.open((numbers[0], numbers[1], numbers[2]), pairs)
    date = datetime.date(*numbers[:3])
    good, bad = filed(store, date, cut(rest))
    return Day(date, [settled(store, number, row, good) for number, row in pairs], len(good), bad)


# ---- words


class Unit(NamedTuple):
    """The unit in which a value is shown, and how many decimals of it the whole number has."""

    symbol: str
    decimals: int


UNITS = {
    Element.TEMPERATURE: Unit("°C", 1),
    Element.DEW_POINT: Unit("°C", 1),
    Element.PRESSURE: Unit("hPa", 1),
    Element.WIND_SPEED: Unit("m/s", 1),
    Element.CLOUD: Unit("eighths", 0),
    Element.VISIBILITY: Unit("km", 1),
    Element.RAIN: Unit("mm", 1),
    Element.MAXIMUM: Unit("°C", 1),
    Element.MINIMUM: Unit("°C", 1),
}
VAPOUR_PRESSURE = Unit("hPa", 2)

#: The flags of a discarded value: the letter beside its mark, and why.
WHY = {
    Flag.RANGE: ("r", "outside its limits"),
    Flag.INTERNAL: ("i", "against another value of the report"),
    Flag.TIME: ("t", "against both neighbours in time"),
}


class Look(NamedTuple):
    """How a cell is shown: the kind, by which it is coloured and drawn; the mark beside its value; in words."""

    kind: str
    mark: str
    words: str


def look(cell: Cell) -> Look:
    """How a cell is shown."""
    letter, why = WHY.get(cell.flag, ("", ""))
    if cell.state == State.MISSING:
        return Look("discarded", f"×{letter}", f"discarded: {why}") if why else Look("missing", "", "missing")
    if cell.state == State.FILLED:
        return Look("refilled", f"f{letter}", f"filled; discarded: {why}") if why else Look("filled", "f", "filled")
    if cell.state == State.CORRECTED:
        return Look("corrected", "c", "corrected: sign mended")
    if cell.flag == Flag.SUSPECT:
        return Look("suspect", "s", "suspect")
    return Look("humidity", "h", "relative humidity") if cell.state == State.HUMIDITY else Look("read", "", "read")


def exact(number: Union[int, float], decimals: int) -> str:
    """A number of so many decimals, exact, with a minus sign; an eighth of it has up to three more."""
    return format(Decimal(number).scaleb(-decimals), "f").replace("-", "\N{MINUS SIGN}")


def amount(number: Union[int, float], unit: Unit) -> str:
    """A number with its unit, which no line end parts."""
    return f"{exact(number, unit.decimals)}\N{NO-BREAK SPACE}{unit.symbol}"


def value_text(element: Element, cell: Cell) -> str:
    """A cell's value as the table has it."""
    if cell.humidity is not None:
        return f"{cell.humidity}\N{NO-BREAK SPACE}%"
    return "\N{EN DASH}" if cell.value is None else exact(cell.value, UNITS[element].decimals)


def element_name(element: Element) -> str:
    """An element's name in words."""
    return element.name.lower().replace("_", " ")


def slot_date(date: datetime.date, slot: int) -> datetime.date:
    """The date of a slot of the day D: hours from 00 UTC are of the day after."""
    return date + datetime.timedelta(days=(hour(0) + 3 * slot) // 24)


def day_month(date: datetime.date) -> str:
    """A date without its year."""
    return f"{date.day} {date:%B}"


def hour_words(date: datetime.date, slot: int) -> str:
    """A slot as hour and date."""
    return f"{hour(slot):02} UTC on {day_month(slot_date(date, slot))}"


def rain_words(line: DayLine) -> str:
    """The day's rain."""
    return "no total" if line.rain is None else amount(line.rain, UNITS[Element.RAIN])


def count_words(line: DayLine) -> str:
    """How the day's values came about."""
    return f"{line.read} read, {line.corrected} corrected, {line.filled} filled, {line.missing} missing"


# ---- markup


def tag(name: str, *content: str, **attributes: object) -> str:
    """An element of the page. Attributes are escaped, content is markup; `class_` is class, `aria_label` is aria-label."""
    words = (f' {key.rstrip("_").replace("_", "-")}="{html.escape(str(value))}"' for key, value in attributes.items())
    return f"<{name}{''.join(words)}>{''.join(content)}</{name}>"


def lines(*parts: str) -> str:
    """Parts of the page, each on lines of its own."""
    return "\n".join(parts)


#: A text of more bytes is refused whatever it holds; the first bytes of it are shown.
LONGEST, SHOWN = 512, 80
#: What is no printed character and no line end: shown as its two hexadecimal digits.
UNPRINTED = re.compile(rb"([^\n -~])")


def shown(text: bytes) -> str:
    """A text of the input as markup. Blanks before and after it are left out, a byte that has no print is shown by its number."""
    text = text.strip(BLANKS)
    left = len(text) - SHOWN if len(text) > LONGEST else 0
    parts = UNPRINTED.split((text[:SHOWN] if left else text).replace(b"\r\n", b"\n"))
    printed = (html.escape(part.decode("ascii"), quote=False) for part in parts[::2])
    numbers = (tag("i", f"‹{byte[0]:02X}›") for byte in parts[1::2])
    code = tag("code", *(part + number for part, number in itertools.zip_longest(printed, numbers, fillvalue="")))
    return code + (tag("span", f" … and {left} more bytes", class_="soft") if left else "")


# ---- a station's day line and table


def mean_words(mean: Mean, unit: Unit) -> str:
    """A mean, and how it came about."""
    kind = tag("span", mean.kind.name.lower(), class_="kind")
    return kind if mean.value is None else f"{amount(mean.value, unit)} {kind}"


def extreme_words(date: datetime.date, station: Station, slot: Optional[int]) -> str:
    """The warmest or the coldest slot, with its temperature."""
    if slot is None:
        return "no temperature"
    value = station.cells[Element.TEMPERATURE][slot].value
    return f"{hour_words(date, slot)}, {amount(value, UNITS[Element.TEMPERATURE])}"


def entry(term: str, words: str, kind: str = "") -> str:
    """An entry of the day line."""
    return tag("div", tag("dt", term), tag("dd", words), class_=f"entry {kind}".rstrip())


def day_line(date: datetime.date, station: Station) -> str:
    """The day line in words and units."""
    line = station.line
    whole = [
        entry("Rain, 06 to 06 UTC", rain_words(line)),
        entry("Warmest hour", extreme_words(date, station, line.warmest)),
        entry("Coldest hour", extreme_words(date, station, line.coldest)),
        entry("The 81 values", count_words(line)),
    ]
    # Of the first five elements there are means.
    first = [line.temperature, line.dew_point, line.pressure, line.wind_speed, line.cloud]
    means = [(element_name(element), mean, UNITS[element]) for element, mean in zip(Element, first)]
    means.append(("vapour pressure", line.vapour_pressure, VAPOUR_PRESSURE))
    rest = [entry(f"Mean {term}", mean_words(mean, unit), mean.kind.name.lower()) for term, mean, unit in means]
    return lines(tag("dl", "\n", lines(*whole), "\n", class_="whole"), tag("dl", "\n", lines(*rest), "\n", class_="means"))


def value_cell(element: Element, slot: int, station: Station) -> str:
    """A cell of the table: the value, its mark, and whether its hour is the warmest or the coldest."""
    cell = station.cells[element][slot]
    kind, mark, words = look(cell)
    line = station.line
    extremes = [("▲", "warmest hour", line.warmest), ("▼", "coldest hour", line.coldest)]
    here = [tag("abbr", sign, title=title, class_="extreme") for sign, title, of in extremes if of == slot]
    before = here if element == Element.TEMPERATURE else []
    after = [tag("abbr", mark, title=words, class_="mark")] if mark else []
    return tag("td", *before, tag("span", value_text(element, cell)), *after, class_=kind)


def value_row(element: Element, station: Station) -> str:
    """An element's row of the table."""
    words = tag("b", element.letter), " ", element_name(element), " "
    head = tag("th", *words, tag("span", UNITS[element].symbol, class_="soft"), scope="row", class_="head")
    return tag("tr", head, *(value_cell(element, slot, station) for slot in range(SLOTS)))


def value_table(date: datetime.date, station: Station) -> str:
    """The nine elements by the nine slots."""
    label = f"s{station.number:05}-values"
    one, two = day_month(date), day_month(slot_date(date, SLOTS - 1))
    days = [
        tag("th", "element, unit", scope="col", rowspan=2, class_="head soft"),
        tag("th", one, scope="colgroup", colspan=6),
        tag("th", two, scope="colgroup", colspan=2),
        tag("th", two, tag("span", "in no mean", class_="soft"), scope="colgroup"),
    ]
    hours = (tag("th", f"{hour(slot):02}", tag("span", f"slot {slot}", class_="soft"), scope="col") for slot in range(SLOTS))
    return lines(
        f'<div class="scroll" role="region" aria-labelledby="{label}" tabindex="0">',
        '<table class="values">',
        tag("caption", f"Checked values of {station.number:05}, by hour UTC", id=label),
        "".join(tag("colgroup", span=span) for span in (1, 6, 2, 1)),
        tag("thead", tag("tr", *days), tag("tr", *hours)),
        tag("tbody", "\n", lines(*(value_row(element, station) for element in Element)), "\n"),
        "</table>",
        "</div>",
    )


# ---- a station's curves

#: Where a panel's scale, its first slot and its top are, how far slots are apart, and how wide a panel is.
LEFT, FIRST, TOP, PITCH, WIDTH = 44, 58, 30, 40, 400
#: A panel's scale has at most so many steps.
STEPS = 4

#: The point of each kind, drawn around the origin; a discarded value has none, but a mark under the panel.
POINTS = {
    "read": "M-3 0a3 3 0 1 0 6 0a3 3 0 1 0-6 0z",
    "corrected": "M0-7L6 0L0 7L-6 0z",
    "filled": "M-4.5 0a4.5 4.5 0 1 0 9 0a4.5 4.5 0 1 0-9 0z",
    "refilled": "M-5.5 0a5.5 5.5 0 1 0 11 0a5.5 5.5 0 1 0-11 0zM-3.5-3.5L3.5 3.5M-3.5 3.5L3.5-3.5",
    "suspect": "M0-7L6.5 5H-6.5z",
    "discarded": "M-4-4L4 4M-4 4L4-4",
}


class Scale(NamedTuple):
    """A panel's scale, tenths from low to high in steps, and the y of its bottom."""

    low: int
    high: int
    step: int
    bottom: int

    def y(self, value: int) -> str:
        """Where a value is."""
        return f"{self.bottom - (value - self.low) * (self.bottom - TOP) / (self.high - self.low):.1f}"


def x(slot: int) -> int:
    """Where a slot is."""
    return FIRST + PITCH * slot


def fitted(values: Sequence[int], step: int, height: int) -> Scale:
    """The scale of a step that has all values."""
    low = min(values) // step * step
    return Scale(low, max(-(-max(values) // step) * step, low + step), step, TOP + height)


def scale(values: Sequence[int], height: int) -> Scale:
    """The finest scale, by whole units, that has all values in few steps."""
    steps = (first * 10**power for power in itertools.count(1) for first in (1, 2, 5))
    scales = (fitted(values, step, height) for step in steps)
    return next(on for on in scales if on.high - on.low <= STEPS * on.step)


def runs(cells: Sequence[Cell]) -> Iterator[List[int]]:
    """The slots of a curve, parted where a value is missing. A humidity is no value of D."""
    for there, slots in itertools.groupby(range(len(cells)), lambda slot: cells[slot].value is not None):
        if there:
            yield list(slots)


def point(kind: str, across: int, down: str) -> str:
    """A point of a curve."""
    return f'<path class="point {kind}" transform="translate({across} {down})" d="{POINTS[kind]}"/>'


def curve(element: Element, cells: Sequence[Cell], on: Scale) -> str:
    """A curve and its points."""
    places = {slot: on.y(cells[slot].value) for run in runs(cells) for slot in run}
    joined = [" ".join(f"{x(slot)},{places[slot]}" for slot in run) for run in runs(cells) if len(run) > 1]
    paths = [f'<polyline points="{points}"/>' for points in joined]
    return tag("g", *paths, *(point(look(cells[slot]).kind, x(slot), y) for slot, y in places.items()), class_=element.letter)


def bar(element: Element, slot: int, cell: Cell, on: Scale) -> str:
    """A bar and its number; of 0 the number alone is seen."""
    kind, mark, _ = look(cell)
    top = on.y(cell.value)
    size = f'y="{top}" width="22" height="{on.bottom - float(top):.1f}"'
    words = f"{exact(cell.value, UNITS[element].decimals)} {mark}".rstrip()
    number = f'<text class="number" x="{x(slot)}" y="{float(top) - 4:.1f}">{words}</text>'
    return f'<rect class="bar {kind}" x="{x(slot) - 11}" {size}/>{number}'


def bars(element: Element, cells: Sequence[Cell], on: Scale) -> str:
    """A bar for each value."""
    there = (slot for run in runs(cells) for slot in run)
    return tag("g", *(bar(element, slot, cells[slot], on) for slot in there), class_=element.letter)


def undrawn(elements: Sequence[Element], station: Station, down: int) -> Iterator[str]:
    """What stands under a panel in place of a point: a discarded value, a humidity."""
    for slot in range(SLOTS):
        looks = [(element.letter, look(station.cells[element][slot])) for element in elements]
        words = [letter + seen.mark[0] for letter, seen in looks if seen.kind in ("discarded", "humidity")]
        if words:
            yield f'<text class="under" x="{x(slot)}" y="{down}">{" ".join(words)}</text>'


def axes(on: Scale) -> Iterator[str]:
    """The axes and the hours; slot 8 is set apart."""
    right = x(SLOTS - 1) + PITCH // 2
    yield f'<rect class="apart" x="{right - PITCH}" y="{TOP}" width="{PITCH}" height="{on.bottom - TOP}"/>'
    for slot in range(SLOTS):
        yield f'<line class="tick" x1="{x(slot)}" y1="{on.bottom}" x2="{x(slot)}" y2="{on.bottom + 5}"/>'
        yield f'<text class="hour" x="{x(slot)}" y="{on.bottom + 31}">{hour(slot):02}</text>'
    yield f'<path class="axis" d="M{LEFT} {TOP}V{on.bottom}H{right}"/>'
    yield f'<text class="scale" x="{LEFT - 6}" y="{on.bottom + 31}">UTC</text>'


def ticks(on: Scale) -> Iterator[str]:
    """The scale's labels and lines."""
    for tick in range(on.low, on.high + 1, on.step):
        y = on.y(tick)
        yield f'<line class="grid" x1="{LEFT}" y1="{y}" x2="{x(SLOTS - 1) + PITCH // 2}" y2="{y}"/>'
        yield f'<text class="scale" x="{LEFT - 6}" y="{float(y) + 4:.1f}">{exact(tick // 10, 0)}</text>'


def keys(elements: Sequence[Element]) -> Iterator[str]:
    """The panel's unit, and the line and name of each of its elements."""
    yield f'<text class="scale" x="{LEFT - 6}" y="14">{UNITS[elements[0]].symbol}</text>'
    for place, element in enumerate(elements):
        left = LEFT + 150 * place
        sample = f'<rect class="bar read" x="{left + 8}" y="5" width="12" height="10"/>'
        line = f'<polyline points="{left},10 {left + 28},10"/>'
        yield tag("g", sample if element == Element.RAIN else line, class_=element.letter)
        yield f'<text x="{left + 34}" y="14">{element.letter} {element_name(element)}</text>'


Drawing = Callable[[Element, Sequence[Cell], Scale], str]


def panel(station: Station, elements: Sequence[Element], draw: Drawing, height: int, least: Sequence[int] = ()) -> str:
    """A panel of curves or bars, its scale from the values and the least one."""
    values = [cell.value for element in elements for cell in station.cells[element]]
    there = [value for value in values if value is not None]
    on = scale([*there, *least] or [0], height)
    names = " and ".join(element_name(element) for element in elements)
    labels = [f"s{station.number:05}-{elements[0].letter}-{what}" for what in ("title", "desc")]
    on_scale = [*ticks(on), *(draw(element, station.cells[element], on) for element in reversed(elements))]
    empty = [f'<text class="none" x="{x(4)}" y="{TOP + height // 2}">no values</text>']
    return lines(
        f'<svg role="img" viewBox="0 0 {WIDTH} {on.bottom + 36}" aria-labelledby="{" ".join(labels)}">',
        tag("title", f"{names} of {station.number:05} over the nine hours", id=labels[0]),
        tag("desc", f"In {UNITS[elements[0]].symbol}; the values are those of the table.", id=labels[1]),
        lines(*axes(on), *keys(elements), *undrawn(elements, station, on.bottom + 16)),
        lines(*(on_scale if there else empty)),
        "</svg>",
    )


def curves(station: Station) -> str:
    """The panels of a station."""
    return lines(
        "<figure>",
        tag("figcaption", f"Curves of {station.number:05}"),
        panel(station, [Element.TEMPERATURE, Element.DEW_POINT], curve, 120),
        panel(station, [Element.PRESSURE], curve, 80),
        panel(station, [Element.RAIN], bars, 80, [0]),
        "</figure>",
    )


# ---- the reports


def report_words(reports: Sequence[Report]) -> str:
    """The reports of a slot."""
    nil = tag("span", "NIL, no values", class_="kind") + " "
    texts = (tag("div", (nil if report.nil else "") + shown(report.text)) for report in reports)
    return "".join(texts) or tag("span", "no report", class_="soft")


def text_table(caption: str, heads: Sequence[str], rows: Iterator[str]) -> str:
    """A table of reports."""
    return lines(
        '<table class="reports">',
        tag("caption", caption),
        tag("thead", tag("tr", *(tag("th", head, scope="col") for head in heads))),
        tag("tbody", "\n", lines(*rows), "\n"),
        "</table>",
    )


def report_table(station: Station) -> str:
    """The reports of a station by slot."""
    by_slot = ([report for report in station.reports if report.slot == slot] for slot in range(SLOTS))
    rows = (
        tag("tr", tag("th", f"{hour(slot):02}", scope="row"), tag("td", report_words(reports)))
        for slot, reports in enumerate(by_slot)
    )
    return text_table(f"Reports of {station.number:05} as they were filed", ("UTC", "report"), rows)


def refused_row(report: RefusedReport) -> str:
    """A report refused, and why."""
    why = tag("td", tag("b", str(report.refusal.value)), " ", html.escape(report.refusal.meaning))
    return tag("tr", tag("th", str(report.place), scope="row"), why, tag("td", shown(report.text)))


def refused_section(refused: Sequence[RefusedReport]) -> str:
    """The reports refused, in the order of the input."""
    caption = "In the order of the input; the first column is the report's place in it"
    table = text_table(caption, ("report", "refused", "text"), map(refused_row, refused))
    return tag("section", "\n", lines(tag("h2", "Reports refused"), table if refused else tag("p", "None.")), "\n", id="refused")


# ---- the page


def station_section(date: datetime.date, station: Station) -> str:
    """All of a station."""
    label = f"s{station.number:05}"
    head = tag("h2", f"Station {station.number:05} ", tag("span", station.row.name.lower(), class_="soft"))
    beside = tag("div", "\n", curves(station), "\n", report_table(station), "\n", class_="beside")
    parts = lines(head, day_line(date, station), value_table(date, station), beside)
    return tag("section", "\n", parts, "\n", id=label, class_="station")


#: What is shown in the legend: a value as an example, its cell, and what it means.
LEGEND = [
    (Element.TEMPERATURE, Cell(State.READ, Flag.NONE, 103), "read: as the report gave it"),
    (Element.TEMPERATURE, Cell(State.CORRECTED, Flag.TIME, 150), "corrected: a temperature whose sign was mended"),
    (Element.TEMPERATURE, Cell(State.FILLED, Flag.NONE, 135), "filled: of T, D, P, W, at 09 to 03 UTC, where none was there, from both neighbours in time"),
    (Element.TEMPERATURE, Cell(State.FILLED, Flag.RANGE, 52), "filled (fr, fi, ft) after a value was discarded as below"),
    (Element.WIND_SPEED, Cell(State.READ, Flag.SUSPECT, 576), "suspect: read, doubted, and kept"),
    *((Element.DEW_POINT, Cell(State.MISSING, flag, None), f"discarded: {why}") for flag, (_, why) in WHY.items()),
    (Element.DEW_POINT, Cell(State.HUMIDITY, Flag.NONE, None, 63), "read: a relative humidity in place of the dew point"),
    (Element.TEMPERATURE, Cell(State.MISSING, Flag.NONE, None), "missing"),
]

NOTES = [
    "Means, the warmest and the coldest hour are over the eight hours from 06 to 03 UTC. A mean is <b>absent</b> where one or more of the "
    "eight values are missing, that of D also where one is a humidity; else <b>mended</b> where one or more are corrected or filled, and "
    "<b>read</b> where none is.",
    "A humidity is not checked, and is no neighbour of a D beside it. An hour's vapour pressure is that of D or, of a humidity, its share of "
    "that of T; it is mended where that D or T is.",
    "A value of rain is over the hours that the last digit of its group 6 names: 1 is 6 hours, 2 is 12, 4 is 24. A dry station sends iR 3 "
    "and no group 6, and has 0.0, of 12 hours at 06 and 18 UTC, of 6 at 12 and 00. The day's total is the 24 hours to 06 UTC, else the sum of "
    "two halves, to 18 and to 06 UTC: each the rain of 12 hours, or of twice 6; a half that ends dry is the rain of the report six hours before "
    "if that is of 6 hours, else 0.",
    "Under a curve, a letter with × stands for a value that was discarded, Dh for a humidity. No line is drawn across a gap.",
]


def legend_entry(sample: str, kind: str, words: str) -> str:
    """A cell as the table has it, the point that a curve has of it, and what it means."""
    drawing = f'<svg viewBox="-9 -9 18 18" aria-hidden="true"><g class="T">{point(kind, 0, "0")}</g></svg>' if kind in POINTS else ""
    return tag("li", tag("span", sample, class_=f"sample {kind}"), tag("span", drawing, class_="shape"), tag("span", words))


def legend_cell(element: Element, cell: Cell, words: str) -> str:
    """How a cell is shown, and what that means."""
    kind, mark, _ = look(cell)
    return legend_entry(value_text(element, cell) + (tag("b", mark, class_="mark") if mark else ""), kind, words)


def legend() -> str:
    """What the page's marks mean."""
    entries = [legend_cell(*example) for example in LEGEND]
    entries.append(legend_entry("▲ ▼", "extremes", "▲ the warmest hour, the latest of equal ones; ▼ the coldest, the earliest"))
    notes = (tag("p", note) for note in NOTES)
    return tag("section", "\n", lines(tag("h2", "How to read it"), tag("ul", "\n", lines(*entries), "\n"), *notes), "\n", class_="legend")


def heading(day: Day) -> str:
    """The date, the stations, and how many reports there were."""
    hours = f"Reports from {hour_words(day.date, 0)} to {hour_words(day.date, SLOTS - 1)}."
    refused = tag("a", f"{len(day.refused)} refused", href="#refused")
    stations = (
        tag("li", tag("a", f"{station.number:05}", href=f"#s{station.number:05}"), f" {station.row.name.lower()}")
        for station in day.stations
    )
    return lines(
        "<header>",
        tag("h1", "Day sheet of ", tag("time", f"{day_month(day.date)} {day.date.year}", datetime=day.date.isoformat())),
        tag("p", hours, f" {day.accepted} accepted, ", refused, "."),
        tag("ul", "\n", lines(*stations), "\n", class_="stations", aria_label="Stations"),
        "</header>",
    )


def page(title: str, content: str) -> str:
    """A page by itself."""
    return lines(
        "<!DOCTYPE html>",
        '<html lang="en">',
        "<head>",
        '<meta charset="utf-8"/>',
        tag("title", title),
        '<meta name="viewport" content="width=device-width, initial-scale=1"/>',
        '<meta name="color-scheme" content="light"/>',
        tag("style", STYLE),
        "</head>",
        "<body>",
        content,
        "</body>",
        "</html>",
        "",
    )


def day_page(day: Day) -> str:
    """The page of a day."""
    stations = (station_section(day.date, station) for station in day.stations)
    content = lines(heading(day), "<main>", legend(), *stations, refused_section(day.refused), "</main>")
    return page(f"Day sheet of {day_month(day.date)} {day.date.year}", content)


def refused_page(refused: Refused, line: bytes) -> str:
    """The page of an input whose first line opens no store."""
    title = "No day sheet"
    words = tag("p", "The first line of the input cannot open a store: ", html.escape(str(refused)), ".")
    first = tag("p", shown(line) if line.strip(BLANKS) else "It is empty.")
    return page(title, lines("<main>", tag("h1", title), words, first, "</main>"))


def sheet(data: bytes) -> str:
    """The page of an input."""
    try:
        return day_page(read_day(data))
    except Refused as refused:
        return refused_page(refused, data.partition(b"\n")[0])


STYLE = """
:root { color-scheme: light; --ink: #1b1b1b; --soft: #575757; --rule: #6f6f6f; --faint: #d4d4d0; --apart: #f3f2ee; }
* { box-sizing: border-box; }
body { margin: 0 auto; max-width: 1140px; padding: 24px 20px 48px; background: #fff; color: var(--ink);
  font: 15px/1.45 -apple-system, "Segoe UI", Roboto, "Helvetica Neue", "Liberation Sans", Arial, sans-serif;
  font-variant-numeric: tabular-nums; }
h1 { margin: 0 0 4px; font-size: 26px; font-weight: 600; line-height: 1.2; }
h2 { margin: 0 0 10px; font-size: 20px; font-weight: 600; line-height: 1.2; }
p { margin: 0 0 8px; max-width: 115ch; }
a { color: #0b4a86; }
header { border-top: 4px double var(--ink); padding-top: 14px; }
section { border-top: 2px solid var(--ink); margin-top: 28px; padding-top: 12px; }
.soft { color: var(--soft); font-weight: 400; }
.stations { display: flex; flex-wrap: wrap; gap: 2px 20px; margin: 0; padding: 0; list-style: none; }

.legend ul { display: grid; grid-template-columns: repeat(auto-fill, minmax(min(330px, 100%), 1fr)); gap: 6px 20px; margin: 0 0 14px;
  padding: 0; list-style: none; }
.legend li { display: grid; grid-template-columns: 84px 20px 1fr; gap: 8px; align-items: center; line-height: 20px; }
.legend p { font-size: 14px; }
.sample { position: relative; display: block; border: 1px solid var(--faint); padding: 3px 30px 3px 6px; text-align: right; }
.shape svg { display: block; width: 18px; height: 18px; }

dl { display: grid; gap: 1px; margin: 0; background: var(--faint); border: 1px solid var(--rule); }
.whole { grid-template-columns: 1fr 1.3fr 1.3fr 1.5fr; margin-bottom: -1px; }
.means { grid-template-columns: repeat(6, 1fr); margin-bottom: 12px; }
.entry { background: #fff; padding: 5px 10px 7px; }
dt { color: var(--soft); font-size: 13px; }
dd { margin: 0; font-weight: 600; }
.kind { display: inline-block; border: 1px solid currentColor; border-radius: 2px; padding: 0 5px; color: var(--soft);
  font-size: 12px; font-weight: 400; line-height: 1.35; }
.mended { background: #e3eefa; }
.mended .kind { color: #0b4a86; }

table { border-collapse: separate; border-spacing: 0; width: 100%; border: solid var(--rule); border-width: 1px 0 0 1px; }
caption { padding: 6px 0; text-align: left; font-weight: 600; }
th, td { border: solid var(--faint); border-width: 0 1px 1px 0; vertical-align: baseline; }
thead th { border-bottom-color: var(--rule); }
tr > :last-child { border-right-color: var(--rule); }
tbody tr:last-child > * { border-bottom-color: var(--rule); }
.scroll { overflow-x: auto; margin-bottom: 14px; }
.values { table-layout: fixed; min-width: 900px; line-height: 22px; }
.values .head { position: sticky; left: 0; z-index: 1; width: 176px; background: #fff; padding: 4px 8px; text-align: left;
  font-weight: 400; border-right-color: var(--rule); }
.values .head b { display: inline-block; width: 1.1em; }
.values thead th { padding: 3px 29px 3px 6px; text-align: right; vertical-align: bottom; font-weight: 600; line-height: 18px;
  white-space: nowrap; }
.values thead [scope="colgroup"] { padding-right: 6px; text-align: left; vertical-align: top; white-space: normal;
  border-bottom-color: var(--faint); }
.values thead th span { display: block; font-size: 12px; }
.values tbody td { position: relative; padding: 4px 29px 4px 6px; text-align: right; white-space: nowrap; }
.values tr > :last-child { border-left: 4px double var(--rule); }
.values .read:last-child, .values .missing:last-child, .values thead th:last-child { background: var(--apart); }
.mark { position: absolute; right: 1px; width: 23px; text-align: left; font-size: 13px; font-weight: 700; text-decoration: none; }
.extreme { margin-right: 3px; font-size: 11px; text-decoration: none; }
.missing { color: var(--soft); }
.corrected { background: #e8dff6; } .corrected .mark { color: #4b2a85; }
.filled, .refilled { background: #dceaf9; } .filled .mark, .refilled .mark { color: #0b4a86; }
.refilled { box-shadow: inset 3px 0 #a3281b; }
.suspect { background: #fdeebb; } .suspect .mark { color: #6b4a00; }
.discarded { background: #f9dcd7; } .discarded .mark { color: #8c1d14; }
.humidity { background: #d6efe8; } .humidity .mark { color: #0b5a4a; }

.beside { display: grid; grid-template-columns: minmax(0, 480px) minmax(0, 1fr); gap: 12px 28px; }
figure { margin: 0; }
figcaption { padding: 6px 0; font-weight: 600; }
figure svg { display: block; width: 100%; margin-bottom: 8px; }
svg { font-size: 12px; fill: var(--ink); }
svg .grid { stroke: #dcdcd8; }
svg .tick, svg .axis { stroke: var(--rule); fill: none; }
svg .apart { fill: var(--apart); }
svg .scale { text-anchor: end; }
svg .hour, svg .under, svg .number, svg .none { text-anchor: middle; }
svg .under, svg .number { font-size: 11px; stroke: none; }
svg .under { font-weight: 700; }
svg polyline { fill: none; stroke-width: 1.8; }
.T { stroke: #a3281b; } .D { stroke: #0b4a86; } .P { stroke: #333; } .R { stroke: #0b4a86; }
.D polyline { stroke-dasharray: 5 4; }
.point { fill: #fff; stroke-width: 1.6; }
.T .read, .T .corrected { fill: #a3281b; } .D .read { fill: #0b4a86; stroke-width: 2.6; } .P .read { fill: #333; }
.bar { fill: #7fa6cc; } .bar.suspect { fill: #fff; stroke-dasharray: 3 2; }

.reports { align-self: start; }
.reports th, .reports td { padding: 4px 8px; text-align: left; }
.reports th { font-weight: 600; }
.reports th:first-child { width: 3.6em; }
.reports thead th { color: var(--soft); font-weight: 400; font-size: 13px; }
#refused table { table-layout: fixed; }
#refused th:first-child { width: 60px; }
#refused th:nth-child(2) { width: 36%; }
code { font: 13px/1.45 ui-monospace, "Cascadia Mono", Menlo, "Liberation Mono", monospace; white-space: pre-wrap; overflow-wrap: anywhere; }
code i { display: inline-block; color: #8c1d14; font-style: normal; }

@media screen and (max-width: 900px) {
  .beside { grid-template-columns: minmax(0, 1fr); }
  .whole, .means { grid-template-columns: 1fr 1fr; }
}
@media screen and (max-width: 500px) {
  body { padding: 16px 16px 32px; }
  .values { min-width: 860px; }
  .values thead [scope="colgroup"] { font-size: 13px; }
  .values .head { width: 122px; padding: 4px 6px; font-size: 13px; }
}
@media print {
  * { print-color-adjust: exact; -webkit-print-color-adjust: exact; }
  body { max-width: none; padding: 0; font-size: 10.5px; }
  h1 { font-size: 18px; }
  h2 { font-size: 14px; margin-bottom: 6px; }
  a { color: inherit; text-decoration: none; }
  section { margin-top: 14px; padding-top: 8px; }
  .station + .station { break-before: page; margin-top: 0; }
  .legend ul { grid-template-columns: repeat(3, 1fr); gap: 4px 12px; margin-bottom: 8px; }
  .legend li { grid-template-columns: 62px 16px 1fr; gap: 6px; line-height: 14px; }
  .legend p, dt, .values thead th span, code, .mark, .kind, .reports thead th { font-size: 9.5px; }
  .legend, dl, figure, .values, tr, #refused { break-inside: avoid; }
  h2, caption, figcaption { break-after: avoid; }
  .scroll { overflow: visible; }
  .values { min-width: 0; line-height: 15px; }
  .values .head { position: static; width: 118px; padding: 2px 4px; }
  .values tbody td { padding: 2px 20px 2px 2px; }
  .values thead th { padding: 2px 20px 2px 2px; line-height: 12px; }
  .values thead [scope="colgroup"] { padding-right: 2px; }
  .mark { width: 16px; }
  .extreme { margin-right: 1px; font-size: 8px; }
  .entry { padding: 3px 6px 4px; }
  .beside { grid-template-columns: minmax(0, 46%) minmax(0, 1fr); gap: 16px; }
  .reports th, .reports td { padding: 2px 5px; }
}
"""


def main() -> None:
    parser = argparse.ArgumentParser(description="The page of a day, from what the program dayline reads.")
    parser.add_argument("input", nargs="?", help="the input; standard input where none is named")
    named = parser.parse_args().input
    data = pathlib.Path(named).read_bytes() if named else sys.stdin.buffer.read()
    sys.stdout.buffer.write(sheet(data).encode("utf-8"))


if __name__ == "__main__":
    try:
        main()
    except OSError as error:
        sys.exit(f"sheet.py: {error}")
