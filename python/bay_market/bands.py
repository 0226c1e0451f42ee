"""The stations' queues of a picture, side by side in bands.

Up and down is fate: a solid line through all columns is the line of the bays, places above it, no place below; a dashed
one is the cut. Left to right is money: a bar is a total, by one scale for all stations."""
from __future__ import annotations

from typing import List, NamedTuple, Optional, Sequence, Tuple

from .svg import INK, PAPER, SOFT, WHITE, Canvas, wide
from .words import Candidate, Station, nth, plural

SEAT, KEEP, FLOOR, LOST, LOST_EDGE, PICK = '#0d5c50', '#c9dfd9', '#b0390b', '#c9c4b8', '#9b968a', '#ffe694'
DASHED, SMALL = '#a9a59b', '#e3dfd3'


class Size(NamedTuple):
    """How a column is drawn, by the room that there is: full rows (number, bar, charge), lean rows (number and bar), or
    marks (bars alone)."""
    name: str
    least: float        # width of a column, with the gap
    bands: int          # at most so many before the next size is taken
    most: float
    gap: float
    row: float          # height of a row with a place
    lost: float         # and of one without
    head: float
    shown: int          # rows without a place
    number: float       # room for a guest's number
    inset: float


FULL = Size('full', 186, 2, 420, 22, 22, 22, 52, 14, 26, 4)
LEAN = Size('lean', 92, 2, 200, 14, 17, 15, 48, 18, 24, 3)
MARKS = Size('marks', 26, 3, 200, 7, 8, 3.5, 34, 90, 0, 0.8)


def layout(count: int, room: float) -> Tuple[Size, int, float]:
    """The size of columns, how many stand in a band, and their width.

    >>> size, columns, width = layout(20, 986)
    >>> size.name, columns, round(width)
    ('lean', 10, 99)
    """
    for size in (FULL, LEAN, MARKS):
        for bands in range(1, size.bands + 1):
            columns = -(-max(1, count) // bands)
            if room / columns >= size.least:
                return size, columns, min(room / columns, size.most)
    columns = max(1, int(room // MARKS.least))
    return MARKS, columns, room / columns


def said(one: Candidate, quiet: bool) -> str:
    """A bar's title.

    >>> from bay_market import Market
    >>> from bay_market.words import look
    >>> said(look(Market([2, 6], [1, 1], [3, 3], [1, 2], [8, 0, 8, 0])).stations[0].queue[0], quiet=False)
    'guest 1: 8 x 3 kWh = 24, seated here, pays 24'
    """
    if one.here:
        what = f'seated here, pays {one.charge:,}'
    elif one.held:
        what = f'holds a place, sits at station {one.seat}'
    elif not one.away:
        what = f'seated at station {one.seat} already'
    else:
        what = ('turned away' if quiet else 'first without a place' if one.first else 'without a place')
        what += f', sits at station {one.seat}' if one.seat else ''
    return f'guest {one.guest}: {one.bid:,} x {one.total // one.bid:,} kWh = {one.total:,}, {what}'


class Band:
    """A row of columns, one for each open station of it."""

    def __init__(self, canvas: Canvas, stations: Sequence[Station], size: Size, width: float, scale: int, quiet: bool,
                 guest: Optional[int]) -> None:
        self.canvas, self.stations, self.size, self.scale = canvas, stations, size, scale
        self.quiet, self.guest = quiet, guest
        self.width = width
        self.column = width - (size.gap if size is not MARKS or width > 34 else 4)
        self.held = [[one for one in at.queue if one.held] for at in stations]
        self.out = [[one for one in at.queue if not one.held] for at in stations]
        places = max(map(len, self.held))
        wanted = max(max(len(held), at.bays if size is not MARKS else 1) for held, at in zip(self.held, stations))
        self.rows = min(wanted, max(places + 2, 2))
        self.shown = min(max(map(len, self.out)), size.shown)
        self.first = 9.0 if size is MARKS else size.lost
        self.track = self.column - size.number - self._tail()

    def _tail(self) -> float:
        """Room for the charge, and for the sign of equal totals."""
        if self.size is not FULL:
            return 0
        charges = [wide(f'{one.charge:,}', 12, True) for held in self.held for one in held if one.here]
        ties = any(a.total == b.total for at in self.stations for a, b in zip(at.queue, at.queue[1:]))
        return max([*charges, 30]) + 6 + (14 if ties else 0)

    def draw(self, left: float, label: float, y: float) -> float:
        """Draws the band and gives the height at which it ends.

        >>> from bay_market import Market
        >>> from bay_market.words import look
        >>> seen = look(Market([2, 6], [1, 1], [3, 3], [1, 2], [8, 0, 8, 0]))
        >>> Band(Canvas(), seen.stations[:1], FULL, 200, 24, quiet=False, guest=None).draw(24, 86, 0)
        168
        """
        size = self.size
        self.bays = y + size.head + 16 + self.rows * size.row + 4
        self.under = self.bays + (6 if size is MARKS else 8)
        cut = self.under + (self.first + (self.shown - 1) * size.lost if self.shown else size.lost) + 10
        if any(len(out) > self.shown for out in self.out):
            cut += 14
        for k, at in enumerate(self.stations):
            x = left + label + k * self.width
            self._head(at, x, y)
            self._places(k, x)
            self._turned_away(k, x)
            self._below(at, x, cut)
        self._lines(left, left + label + len(self.stations) * self.width - (self.width - self.column), cut)
        return cut + self._below_height() + 24

    def _lines(self, left: float, end: float, cut: float) -> None:
        canvas, tall = self.canvas, self.rows * self.size.row
        canvas.line(left, self.bays, end, self.bays, INK, 2)
        middle = self.bays - tall / 2
        word = 'Seats' if self.quiet else 'Places'
        canvas.text(left, middle - 8 if tall > 60 else self.bays - 14, word, 12, bold=True)
        if tall > 60:
            canvas.text(left, middle + 8, 'by falling', 11, SOFT)
            canvas.text(left, middle + 22, 'total', 11, SOFT)
        canvas.text(left, self.bays + 19, 'No seat' if self.quiet else 'No place', 12, bold=True)
        canvas.line(left, cut, end, cut, INK, 1.6, '6 4')
        canvas.text(left, cut + 17, 'Below cut', 12, bold=True)

    def _head(self, at: Station, x: float, y: float) -> None:
        canvas = self.canvas
        if self.size is FULL:
            canvas.text(x, y + 12, f'Station {at.station}', 14, bold=True)
            canvas.text(x, y + 29, f'ask {at.ask:,}, {plural(at.bays, "bay")}', 11, SOFT)
            canvas.text(x, y + 44, f'sold {at.sold:,} kWh, paid {at.paid:,}', 11, SOFT)
        elif self.size is LEAN:
            canvas.text(x, y + 12, f'{at.station}', 14, bold=True)
            canvas.text(x, y + 27, f'ask {at.ask:,}', 10.5, SOFT)
            canvas.text(x, y + 41, f'{at.sold:,} kWh sold' if at.sold else 'none sold', 10.5, SOFT)
        else:
            middle = x + self.column / 2
            canvas.text(middle, y + 12, f'{at.station}', 12, bold=True, anchor='middle')
            canvas.text(middle, y + 26, f'{at.ask:,}', 10 if self.width > 34 else 8.5, SOFT, anchor='middle')

    def _places(self, k: int, x: float) -> None:
        """Who has a place, the free bays, and the floor above them."""
        size, at, held = self.size, self.stations[k], self.held[k]
        drawn = max(len(held), min(at.bays, self.rows))
        start = self.bays - 4 - drawn * size.row
        if size is FULL:
            self._marks_above(at, held, x, start)
        for row, one in enumerate(held):
            self._bar(one, at, x, start + row * size.row, size.row)
        if drawn > len(held):
            self._free(at.bays - len(held), drawn - len(held), x, start + len(held) * size.row)
        if at.floor:
            self._floor(k, x, start)

    def _marks_above(self, at: Station, held: List[Candidate], x: float, start: float) -> None:
        seated = any(one.here for one in held)
        if at.floor:
            words = f'floor {at.floor:,}'
            half = wide(words, 11, True) / 2
            right = x + self.column - half - (34 if seated else 0)
            middle = min(max(self._x(at.floor, x), x + half), right)
            self.canvas.text(middle, start - 6, words, 11, FLOOR, True, 'middle')
        if seated:
            self.canvas.text(x + self.column, start - 6, 'pays', 11, SOFT, anchor='end')

    def _x(self, total: int, x: float) -> float:
        return x + self.size.number + total / self.scale * self.track

    def _free(self, bays: int, rows: int, x: float, y: float) -> None:
        canvas, size = self.canvas, self.size
        if size is MARKS:
            canvas.rect(x, y + 1, self.column, max(3.0, rows * size.row - 3), 'none', DASHED, 0.8, '2 2')
            return
        canvas.rect(x + size.number, y + 3, self.track, size.row - 6, 'none', DASHED, 1, '3 2')
        words = f'{plural(bays, "bay")} free' if size is FULL else f'{bays:,} free'
        canvas.text(x + size.number + 6, y + size.row - 7 + (size is LEAN), words, 10 if size is FULL else 9, SOFT)

    def _floor(self, k: int, x: float, start: float) -> None:
        """The floor from the first place down to the one who set it."""
        index = next(k for k, one in enumerate(self.out[k]) if one.first)
        rows = min(index + 1, self.shown)
        stop = self.under + (self.first + (rows - 1) * self.size.lost) - 2
        at = self._x(self.stations[k].floor, x)
        self.canvas.line(at, start - 2, at, stop, FLOOR, 1.6)

    def _turned_away(self, k: int, x: float) -> None:
        canvas, size, out = self.canvas, self.size, self.out[k]
        y = self.under
        for row, one in enumerate(out[:self.shown]):
            tall = self.first if row == 0 else size.lost
            self._bar(one, self.stations[k], x, y, tall)
            y += tall
        if len(out) > self.shown:
            hidden = next((one for one in out[self.shown:] if one.guest == self.guest), None)
            if hidden:
                canvas.rect(x - 3, y + 1, self.column + 6, 13, PICK)
            words = f'{hidden.guest} is {nth(hidden.rank)}' if hidden else f'and {len(out) - self.shown} more'
            canvas.text(x + size.number, y + 11, words, 10, INK if hidden else SOFT)
        if not out and size is FULL:
            canvas.text(x + size.number, self.under + 13, 'nobody', 11, SOFT)

    def _bar(self, one: Candidate, at: Station, x: float, y: float, tall: float) -> None:
        """A guest's total, with what it pays of it."""
        canvas, size = self.canvas, self.size
        inset = size.inset if tall > 5 else 0.4
        bar, top, high = x + size.number, y + inset, max(1.2, tall - 2 * inset)
        length = max(2.0, one.total / self.scale * self.track)
        pays = min(length, one.charge / self.scale * self.track)
        if one.guest == self.guest:
            canvas.rect(x - 3, y, self.column + 6, max(tall, 3), PICK)
        title = said(one, self.quiet)
        if one.here:
            canvas.rect(bar, top, length, high, KEEP, SEAT, 1 if tall > 5 else 0.6, title=title)
            canvas.rect(bar, top, pays, high, SEAT, title=title)
            if size is FULL and one.charge > one.least:
                mark = self._x(one.least, x)
                canvas.line(mark, top + 1.5, mark, top + high - 1, WHITE, 1.6, '1.6 1.6')
        elif not one.away:
            canvas.rect(bar, top, length, high, WHITE if tall > 5 else KEEP, SEAT if tall > 5 else '', title=title)
            if tall > 5:
                canvas.rect(bar, top, pays if one.held else length, high, 'url(#hatch)', SEAT, title=title)
        elif one.first:
            canvas.rect(bar, top, length, high, PAPER, FLOOR, 1.6 if tall > 5 else 1, title=title)
        else:
            canvas.rect(bar, top, length, high, LOST, LOST_EDGE if tall > 5 else '', 0.8, title=title)
        if size is not MARKS:
            self._beside(one, at, x, bar + length, y + tall / 2 + 4.2)

    def _beside(self, one: Candidate, at: Station, x: float, end: float, base: float) -> None:
        """A bar's number in front, and behind it what is paid, the seat elsewhere, or the sign of equal totals."""
        canvas, full = self.canvas, self.size is FULL
        strong = one.here or one.first
        canvas.text(x + self.size.number - 6, base, str(one.guest), 11.5 if full else 10.5, INK, strong, 'end')
        if full and one.here:
            canvas.text(x + self.column, base, f'{one.charge:,}', 12, INK, True, 'end')
        elif full and one.seat:
            canvas.text(x + self.column, base, f'at {one.seat}', 11, SOFT, anchor='end')
        if one.rank < len(at.queue) and at.queue[one.rank].total == one.total:
            canvas.text(end + (5 if full else 3), base + (8 if full else 6), '=', 12 if full else 11, INK, True)

    def _below(self, at: Station, x: float, y: float) -> None:
        """Who bids below the cut."""
        if not at.below:
            return
        if self.size is FULL:
            self._below_full(at, x, y)
        elif self.size is LEAN:
            words, shown = '', 0
            for guest, _ in at.below:
                if wide(f'{words} {guest}', 11) > self.column - 40:
                    break
                words, shown = f'{words} {guest}'.strip(), shown + 1
            more = f' +{len(at.below) - shown}' if shown < len(at.below) else ''
            self.canvas.text(x + 2, y + 17, words + more, 10.5, SOFT)
        elif self.column < 30:
            self.canvas.text(x + self.column / 2, y + 15, str(len(at.below)), 9.5, SOFT, anchor='middle')
        else:
            per = max(1, int(self.column // 7))
            for k, (guest, _) in enumerate(at.below):
                chosen = guest == self.guest
                colours = (PICK, INK) if chosen else (SMALL, '')
                self.canvas.rect(x + k % per * 7, y + 7 + k // per * 7, 5, 5, *colours, line=0.8)

    def _below_full(self, at: Station, x: float, y: float) -> None:
        for k, (guest, bid) in enumerate(at.below[:8]):
            across, down = x + 4 + k % 2 * self.column / 2, y + 17 + k // 2 * 18
            if guest == self.guest:
                self.canvas.rect(across - 3, down - 12, self.column / 2 - 6, 16, PICK)
            self.canvas.text(across, down, str(guest), 11.5, INK, True)
            self.canvas.text(across + wide(str(guest), 12) + 8, down, f'bids {bid:,}', 11, SOFT)
        if len(at.below) > 8:
            self.canvas.text(x + 4, y + 17 + 4 * 18, f'and {len(at.below) - 8} more', 11, SOFT)

    def _below_height(self) -> float:
        most = max(len(at.below) for at in self.stations)
        if self.size is FULL:
            return 10 + 18 * min(5, -(-most // 2))
        if self.size is LEAN or self.column < 30:
            return 20
        return 10 + 7 * -(-most // max(1, int(self.column // 7)))
