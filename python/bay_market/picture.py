"""A still picture of a market and its clearing, as SVG: facts, the asks on a rail with the cut, the queues of the open
stations, a legend, a chosen guest in words, the stations that are not open."""
from __future__ import annotations

from typing import Dict, List, Optional, Tuple

from .bands import FLOOR, FULL, KEEP, LOST, LOST_EDGE, MARKS, PICK, SEAT, Band, Size, layout
from .market import Market
from .svg import FONT, INK, PAPER, RULE, SOFT, WHITE, Canvas, esc, wide, wrapped
from .words import Round, Station, look, plural, reason

TOWER = 8               # of equal asks; the others are counted
EDGE = '#77746c'
HATCH = ('<defs><pattern id="hatch" width="5" height="5" patternUnits="userSpaceOnUse" patternTransform="rotate(45)">'
         f'<rect width="5" height="5" fill="{WHITE}"/><rect width="2.2" height="5" fill="{SEAT}"/></pattern></defs>')


def draw(market: Market, rule: int = 1, quiet: bool = False, guest: Optional[int] = None, width: int = 1120,
         title: str = '') -> str:
    """A market and its clearing as SVG.

    >>> draw(Market([2, 6], [1, 1], [3, 3], [1, 2], [8, 0, 8, 0]))[:58]
    '<svg xmlns="http://www.w3.org/2000/svg" width="1120" heigh'
    """
    return _Picture(look(market, rule, quiet), guest, width, title).draw()


class _Picture:
    def __init__(self, seen: Round, guest: Optional[int], width: int, title: str) -> None:
        self.seen, self.guest, self.width, self.title = seen, guest, width, title
        self.canvas = Canvas()
        self.quiet = seen.clearing.quiet
        self.open = [at for at in seen.stations if at.open]
        self.shut = [at for at in seen.stations if not at.open]
        self.left, self.right, self.label = 24.0, width - 24.0, 86.0

    def draw(self) -> str:
        y = self._rail(self._facts(34) + 6)
        if self.open:
            size, columns, width = layout(len(self.open), self.right - self.left - self.label)
            scale = max([one.total for at in self.open for one in at.queue] or [1])
            for k in range(0, len(self.open), columns):
                band = Band(self.canvas, self.open[k:k + columns], size, width, scale, self.quiet, self.guest)
                y = band.draw(self.left, self.label, y)
            y = self._legend(y + 10, size)
        else:
            self.canvas.text(self.left, y + 6, 'No station is open: no ask is below the cut.', 13, bold=True)
            y += 30
        if self.guest:
            y = self._about(self.guest, y + 8)
        return self._whole(self._closed(y + 8) + 18)

    def _whole(self, height: float) -> str:
        market, cleared = self.seen.market, self.seen.clearing
        words = (f'{plural(market.n, "guest")}, {plural(market.m, "station")}, cut {cleared.cut:,}, '
                 f'{sum(map(bool, cleared.stations)):,} seated')
        size = f'width="{self.width}" height="{height:.0f}" viewBox="0 0 {self.width} {height:.0f}"'
        return (f'<svg xmlns="http://www.w3.org/2000/svg" {size} font-family="{FONT}" role="img">'
                f'<title>{esc(self.title or "A market of charging bays")}</title><desc>{esc(words)}</desc>{HATCH}'
                f'<rect width="100%" height="100%" fill="{PAPER}"/>\n' + '\n'.join(self.canvas.out) + '\n</svg>\n')

    # above the queues

    def _facts(self, y: float) -> float:
        market, cleared, canvas = self.seen.market, self.seen.clearing, self.canvas
        if self.title:
            canvas.text(self.left, y, self._cut_title(), 20, bold=True)
            y += 30
        kind = 'quiet' if self.quiet else 'truthful'
        facts = [('', f'{kind} round, rule {cleared.rule}'), ('cut', f'{cleared.cut:,}'),
                 ('open', f'{len(self.open)} of {plural(market.m, "station")}'),
                 ('seated', f'{sum(map(bool, cleared.stations))} of {plural(market.n, "guest")}'),
                 ('charged', f'{sum(cleared.charges):,}'), ('paid out', f'{sum(cleared.paid):,}'),
                 ('margin', f'{cleared.margin:,}')]
        x = self.left
        for name, value in facts:
            gap = wide(name, 12) + 6 if name else 0
            need = gap + wide(value, 12, True)
            if x + need > self.right and x > self.left:
                x, y = self.left, y + 20
            if name:
                canvas.text(x, y, name, 12, SOFT)
            canvas.text(x + gap, y, value, 12, bold=True)
            x += need + 24
        return y + 18

    def _cut_title(self) -> str:
        title, room = self.title, self.right - self.left
        while wide(title, 20, True) > room:
            title = title[:-5] + '...'
        return title

    def _disc(self, x: float, y: float, radius: float, at: Station) -> None:
        colours = (SEAT, SEAT, WHITE) if at.open else (PAPER, EDGE, SOFT)
        self.canvas.disc(x, y, radius, str(at.station), *colours, bold=at.open)

    def _rail(self, y: float) -> float:
        """The asks on a line, and the cut among them."""
        stations = self.seen.stations
        radius = 9.0 if len(stations) > 14 else 11.0
        low, high = min(at.ask for at in stations), max(at.ask for at in stations)
        pad = max(radius + 2, wide(f'{high:,}', 11) / 2)
        span = self.right - self.left - 2 * pad
        places = {at.ask: self.left + pad + span * (0.5 if high == low else (at.ask - low) / (high - low))
                  for at in stations}
        towers = self._towers(places, 2 * radius + 1.5)
        tallest = min(TOWER, max(level for level, _ in towers) + 1)
        hidden: Dict[float, int] = {}
        for level, at in towers:
            if level >= TOWER:
                hidden[places[at.ask]] = hidden.get(places[at.ask], 0) + 1
        base = y + 20 + tallest * (2 * radius + 2) + (14 if hidden else 0)
        self._cut(places[self.seen.clearing.cut], y, base)
        for level, at in towers:
            if level < TOWER:
                self._disc(places[at.ask], base - radius - 2 - level * (2 * radius + 2), radius - 0.75, at)
        for x, count in hidden.items():
            end = x + radius + 70 > self.right
            self.canvas.text(x + (-radius - 4 if end else radius + 4), base + 8 - TOWER * (2 * radius + 2),
                             f'and {count} more', 11, SOFT, anchor='end' if end else 'start')
        self._scale(places, high, base)
        return base + 40

    def _towers(self, places: Dict[int, float], apart: float) -> List[Tuple[int, Station]]:
        """Each station with how high it stands, so that no disc hides another."""
        placed: List[Tuple[int, Station]] = []
        for at in sorted(self.seen.stations, key=lambda at: (at.ask, at.station)):
            taken = {level for level, other in placed if abs(places[other.ask] - places[at.ask]) < apart}
            placed.append((next(level for level in range(len(taken) + 1) if level not in taken), at))
        return placed

    def _cut(self, x: float, y: float, base: float) -> None:
        canvas, words, before = self.canvas, f'cut {self.seen.clearing.cut:,}', 'open: ask below the cut'
        canvas.line(self.left, base, self.right, base, '#a9a59b')
        canvas.line(x, y + 2, x, base + 6, INK, 2, '5 4')
        room = x - self.left > wide(before, 12) + 8
        if room:
            canvas.text(x - 8, y + 10, before, 12, SOFT, anchor='end')
        if self.right - x > 90:
            canvas.text(x + 8, y + 10, words, 12, bold=True)
            if self.right - x > 180:
                canvas.text(x + 22 + wide(words, 12, True), y + 10, 'not open', 12, SOFT)
        else:
            canvas.text(x - 8 - (wide(before, 12) + 14 if room else 0), y + 10, words, 12, bold=True, anchor='end')

    def _scale(self, places: Dict[int, float], high: int, base: float) -> None:
        """The asks under the line, as many as there is room for; the highest and the cut among them."""
        apart = max(44.0, wide(f'{high:,}', 11) + 6)
        shown: List[float] = []
        for ask in sorted(places, key=lambda ask: (ask not in (self.seen.clearing.cut, high), ask)):
            if all(abs(places[ask] - other) >= apart for other in shown):
                shown.append(places[ask])
                self.canvas.text(places[ask], base + 16, f'{ask:,}', 11, SOFT, anchor='middle')

    # below the queues

    def _legend(self, y: float, size: Size) -> float:
        pairs = [pair for at in self.open for pair in zip(at.queue, at.queue[1:])]
        words = [('seated', 'seated; dark is the charge'),
                 ('else', 'seated elsewhere' if self.quiet else 'holds it, sits elsewhere'),
                 ('first', 'first turned away' if self.quiet else 'first without a place'),
                 ('lost', 'turned away' if self.quiet else 'outbid'), ('floor', 'floor')]
        if size is not MARKS and any(a.total == b.total for a, b in pairs):
            words.append(('=', 'equal totals, the ticket decides'))
        if size is FULL:
            words.append(('cut', 'cut x kWh'))
        x = self.left
        for key, text in words:
            need = 38 + wide(text, 11.5)
            if x + need > self.right:
                x, y = self.left, y + 20
            self._key(key, x, y)
            self.canvas.text(x + 38, y, text, 11.5, SOFT)
            x += need + 22
        return y + 16

    def _key(self, key: str, x: float, y: float) -> None:
        canvas = self.canvas
        if key == 'seated':
            canvas.rect(x, y - 9, 30, 11, KEEP, SEAT)
            canvas.rect(x, y - 9, 18, 11, SEAT)
        elif key == 'else':
            canvas.rect(x, y - 9, 30, 11, 'url(#hatch)', SEAT)
        elif key == 'first':
            canvas.rect(x, y - 9, 30, 11, PAPER, FLOOR, 1.6)
        elif key == 'lost':
            canvas.rect(x, y - 9, 30, 11, LOST, LOST_EDGE, 0.8)
        elif key == 'floor':
            canvas.line(x + 15, y - 11, x + 15, y + 4, FLOOR, 1.6)
        elif key == 'cut':
            canvas.rect(x, y - 9, 30, 11, SEAT)
            canvas.line(x + 14, y - 8, x + 14, y + 2, WHITE, 1.6, '1.6 1.6')
        else:
            canvas.text(x + 12, y, '=', 12, INK, True)

    def _about(self, guest: int, y: float) -> float:
        """The chosen guest in words."""
        canvas, market = self.canvas, self.seen.market
        station, charge = self.seen.clearing.seats[guest - 1]
        canvas.line(self.left, y, self.right, y, RULE)
        y += 24
        head = f'Guest {guest}: ' + (f'seated at station {station} for {charge:,}' if station else 'no seat')
        size = min(14, 14 * (self.right - self.left - 6) / wide(head, 14, True))
        room = wide(head, size, True)
        canvas.rect(self.left - 4, y - 15, room + 10, 21, PICK)
        canvas.text(self.left, y, head, size, bold=True)
        amount, ticket = market.amounts[guest - 1], market.tickets[guest - 1]
        words = f'{amount:,} kWh, ticket {ticket}'
        if self.left + room + 22 + wide(words, 12) <= self.right:
            canvas.text(self.left + room + 22, y, words, 12, SOFT)
        else:
            y += 22
            canvas.text(self.left, y, words, 12, SOFT)
        y += 8
        row = market.row(guest)
        rows = [(at.station, reason(self.seen, guest, at.station)) for at in self.open if row[at.station - 1]]
        rows.sort(key=lambda row: (not row[1].startswith('seated'), not row[1].startswith('place'), row[0]))
        for number, text in rows[:10]:
            canvas.text(self.left + 20, y + 18, str(number), 12, bold=True, anchor='end')
            for line in wrapped(text, 12, self.right - self.left - 30):
                y += 18
                canvas.text(self.left + 30, y, line, 12, SOFT)
        if not rows or len(rows) > 10:
            y += 18
            words = f'and {plural(len(rows) - 10, "open station")} more' if rows else 'no bid at an open station'
            canvas.text(self.left + 30, y, words, 12, SOFT)
        return y + 14

    def _closed(self, y: float) -> float:
        if not self.shut:
            return y
        canvas = self.canvas
        canvas.line(self.left, y, self.right, y, RULE)
        y += 22
        canvas.text(self.left, y, 'Not open', 12, bold=True)
        words = f'ask at or above the cut of {self.seen.clearing.cut:,}'
        canvas.text(self.left + 72, y, words + ('; bids there count for nothing' if self.width > 640 else ''), 12, SOFT)
        y += 26
        x, radius = self.left, 9.0
        for at in self.shut:
            text = f'ask {at.ask:,}, ' + (plural(at.bids, 'bid') if at.bids else 'no bids')
            need = 2 * radius + 8 + wide(text, 11)
            if x + need > self.right:
                x, y = self.left, y + 25
            self._disc(x + radius, y - 4, radius, at)
            canvas.text(x + 2 * radius + 8, y, text, 11, SOFT)
            x += max(need + 26, 150)
        return y + 8
