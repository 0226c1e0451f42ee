"""A spreadsheet's export made into a strict comma-separated market, saying each thing that was changed.

Made right: byte order mark, UTF-16, semicolons, tabs, quotes, LF or CR line ends, blank lines and columns, blanks
around numbers, headings, labels, a column of names, '.0' after a whole number. Refused, with the cell, because it would
be a guess: thousands separators, decimals, signs, failed formulas, missing cells, whatever is no number where a number
belongs. The engine reads what was made before it is handed on, and what it refuses is named by its cell too."""
from __future__ import annotations

import csv
import io
import re
from typing import List, NamedTuple, NoReturn, Optional, Sequence, Tuple

from .market import Market
from .refusal import Refused
from .words import plural

BLANKS = ' \t\u00a0\u202f'
UTF16 = (b'\xff\xfe', b'\xfe\xff')
DONE = {'a byte order mark': 'left out', 'UTF-16': 'one byte for each character in its place',
        'semicolons': 'commas in their place', 'tabs': 'commas in their place', 'quotes': 'left out',
        'LF line ends': 'CR LF in their place', 'CR line ends': 'CR LF in their place',
        'no line end after the last line': 'CR LF put there'}
NEEDED = 'a market is a line of asks, a line of bays, then for each guest a line with ticket, kWh and its bids'


class Untidy(Exception):
    """What cannot be made right without a guess, or what the engine refuses: `number` is 22, or the engine's."""

    def __init__(self, message: str, number: int = 22) -> None:
        super().__init__(message)
        self.number = number


class Tidied(NamedTuple):
    """The strict text, what was changed, and what stood in front of each guest ('' where nothing did)."""
    text: bytes
    notes: List[str]
    names: List[str]


class Line(NamedTuple):
    """A line of the spreadsheet by its number there, and the file's own count of its cells."""
    row: int
    cells: List[str]
    width: int


def column(index: int) -> str:
    """A column's letters, from 0.

    >>> column(0), column(27)
    ('A', 'AB')
    """
    letters = ''
    index += 1
    while index:
        index, rest = divmod(index - 1, 26)
        letters = chr(65 + rest) + letters
    return letters


def text_place(refused: Refused) -> Optional[Tuple[int, int]]:
    """Line and field of a comma-separated market at which a refusal's fault stands, where that is known.

    >>> from bay_market import Where
    >>> text_place(Refused(8, Where(guest=117)))
    (119, 2)
    """
    where = refused.where
    if where.line is not None:
        return where.line, where.field or 1
    if refused.number in (6, 7) and where.station:
        return refused.number - 5, where.station
    if refused.number in (8, 9, 15, 21) and where.guest:
        return where.guest + 2, {8: 2, 15: 1, 21: 1}.get(refused.number, (where.station or 0) + 2)
    return None


def kind(data: bytes) -> str:
    """What a file that is no market seems to be; '' where nothing is known of it.

    >>> kind(b'%PDF-1.7')
    'a PDF'
    """
    for start, name in ((b'PK\x03\x04', 'a workbook (.xlsx or .ods): in the spreadsheet, save it as CSV'),
                        (b'\xd0\xcf\x11\xe0', 'an old Excel workbook (.xls): in the spreadsheet, save it as CSV'),
                        (b'SQLite format 3', 'a SQLite database'), (b'\x1f\x8b', 'compressed (gzip)'),
                        (b'%PDF', 'a PDF'), (b'{', 'JSON'), (b'[', 'JSON'), (b'<', 'HTML or XML'),
                        (b'\x7fELF', 'a program')):
        if data.startswith(start):
            return name
    return ''


def oddities(data: bytes) -> List[str]:
    """What of a spreadsheet's habits stands in the bytes, in words.

    >>> oddities(b'4;1' + bytes([10]) + b'1;2' + bytes([10]))
    ['semicolons', 'LF line ends']
    """
    if data[:2] in UTF16:
        return ['UTF-16']
    found = ['a byte order mark'] if data.startswith(b'\xef\xbb\xbf') else []
    bare = re.sub(rb'"[^"]*"', b'', data)
    found += [name for mark, name in ((b';', 'semicolons'), (b'\t', 'tabs')) if mark in bare]
    if b'"' in data:
        found.append('quotes')
    if re.search(rb'(?<!\r)\n', bare):
        found.append('LF line ends')
    elif re.search(rb'\r(?!\n)', bare):
        found.append('CR line ends')
    if data and not data.endswith((b'\n', b'\r')) and re.search(rb'[\r\n]', data):
        found.append('no line end after the last line')
    return found


def tidy(data: bytes) -> Tidied:
    """The strict text, what was changed, and the guests' names.

    >>> export = ['\\ufeffask;;2;6', 'bays;;1;1', 'ticket;kWh;bid 1;bid 2', '1;3;8;', '2;3;"8";', '']
    >>> tidy(chr(10).join(export).encode()).text.split()
    [b'2,6', b'1,1', b'1,3,8,', b'2,3,8,']
    """
    what = kind(data)
    if not data or what:
        raise Untidy(f'the file seems to be {what}' if data else 'the file is empty')
    notes: List[str] = []
    return _Table(_lines(_decoded(data, notes), notes), notes).tidied()


def _decoded(data: bytes, notes: List[str]) -> str:
    notes += [f'{odd}: {DONE[odd]}' for odd in oddities(data)]
    if data[:2] in UTF16:
        return data.decode('utf-16', 'replace')
    try:
        return data.decode('utf-8-sig')
    except UnicodeDecodeError:
        notes.append('letters that are not UTF-8: read as Windows-1252')
        return data.decode('cp1252', 'replace')


def _mark(text: str) -> str:
    """The separator: of semicolon, tab and comma the one that stands, outside quotes, in the most lines."""
    rows = re.sub(r'"[^"]*"', '', text).split('\n')
    return max(';\t,', key=lambda mark: sum(mark in row for row in rows))


def _lines(text: str, notes: List[str]) -> List[Line]:
    """The lines that are not blank, all of one length."""
    text = text.replace('\r\n', '\n').replace('\r', '\n')
    named = re.match(r'sep=([;,\t])\n', text)
    reader = csv.reader(io.StringIO(text), delimiter=named.group(1) if named else _mark(text))
    found, blank, padded = [], 0, 0
    try:
        for row, raw in enumerate(reader, 1):
            cells = [cell.strip(BLANKS) for cell in raw]
            if row == 1 and named:
                notes.append('line 1 names the separator: left out')
            elif any(cells):
                padded += sum(cell != bare for cell, bare in zip(raw, cells))
                found.append(Line(row, cells, len(cells)))
            else:
                blank += 1
    except csv.Error as error:
        raise Untidy(f'line {reader.line_num}: {error}') from None
    if blank:
        notes.append(f'{plural(blank, "blank line")}: left out')
    if padded:
        notes.append(f'blanks around {plural(padded, "cell")}: left out')
    width = max((line.width for line in found), default=0)
    return [line._replace(cells=line.cells + [''] * (width - line.width)) for line in found]


def _whole(cell: str) -> str:
    """A whole number without its '.0'; any other cell as it is."""
    found = re.fullmatch(r'([0-9]+)\.0{1,2}', cell)
    return found.group(1) if found else cell


def _is_number(cell: str) -> bool:
    return re.fullmatch('[0-9]+', _whole(cell)) is not None


def _is_word(cell: str) -> bool:
    """A label or a name: a letter comes before any digit, and it is no failed formula."""
    return re.match(r'[^\W\d_]', cell.lstrip('("\'')) is not None


def _advice(cell: str) -> str:
    if re.fullmatch(r"[0-9]{1,3}([., '\u2019\u00a0\u202f][0-9]{3})+", cell):
        return f'write it without separators (as {re.sub("[^0-9]", "", cell)}, if that is the number meant)'
    if re.fullmatch(r'[0-9]*[.,][0-9]+', cell):
        return 'prices are whole mills (thousandths of the currency unit) per kWh, amounts whole kWh'
    if re.fullmatch(r'[-\u2212] ?[0-9.,]+', cell):
        return 'no number may be below 0'
    return 'a formula of the spreadsheet failed there' if cell.startswith('#') else 'not a whole number'


def _numbers_in(line: Line) -> List[int]:
    return [int(_whole(cell)[:20]) for cell in line.cells if _is_number(cell)]


class _Table:
    """The lines of an export, and which of them and of their columns are the market."""

    def __init__(self, lines: List[Line], notes: List[str]) -> None:
        self.lines, self.notes = lines, notes
        self.columns = list(range(len(lines[0].cells) if lines else 0))     # where each column stood
        self.count = 0                          # of stations
        self.ticket = -1                        # the column that a heading names

    def tidied(self) -> Tidied:
        self._drop(leading=True)
        asks = self._asks()
        bays = self._bays(asks)
        guests = self._guests(self.lines[bays + 1:])
        self.lines = [self.lines[asks], self.lines[bays], *guests]
        lead, first, count = self._columns()
        places = [self._stations_line(line, first, count) for line in self.lines[:2]]
        places += [self._guest_line(line, lead, lead + 2 + count) for line in self.lines[2:]]
        self._notes(lead, first, count)
        names = [' '.join(filter(None, line.cells[:lead])) for line in self.lines[2:]]
        return Tidied(self._read(places), self.notes, [' '.join(name.split()) for name in names])

    # lines

    def _asks(self) -> int:
        """The line of asks: the one with that label, or the first with a number."""
        with_number = [k for k, line in enumerate(self.lines) if any(map(_is_number, line.cells))]
        if not with_number:
            raise Untidy(f'no line has a number: {NEEDED}')
        asks = next((k for k in with_number if self._labelled(k, 'ask', 'asks')), with_number[0])
        count = len(_numbers_in(self.lines[asks]))
        for k in range(asks):
            line = self.lines[k]
            if self._labelled(k, 'bay', 'bays'):
                raise Untidy(f'line {line.row} has the bays, above the asks: {NEEDED}')
            if any(map(_is_number, line.cells)) and _numbers_in(line) != list(range(1, count + 1)):
                raise Untidy(f'line {line.row} stands above the asks, and does not number the stations: {NEEDED}')
            self._left_out(line)
        self.count = count
        return asks

    def _bays(self, asks: int) -> int:
        """The line of bays: the next with a number."""
        for k in range(asks + 1, len(self.lines)):
            if any(map(_is_number, self.lines[k].cells)):
                later = next((j for j in range(asks + 1, len(self.lines)) if self._labelled(j, 'bay', 'bays')), k)
                if later != k:
                    raise Untidy(f'line {self.lines[later].row} has the bays, not below the asks: {NEEDED}')
                return k
            self._left_out(self.lines[k])
        raise Untidy(f'no line of bays: {NEEDED}')

    def _guests(self, lines: List[Line]) -> List[Line]:
        """The guests' lines: what stands above them without a ticket and a kWh is a heading."""
        headings = 0
        while lines and self._is_heading(lines) and headings < 1:
            headings += len(list(filter(None, lines[0].cells))) > 1
            self._left_out(lines.pop(0))
        if lines and not any(map(_is_number, lines[-1].cells)) and self._is_remark(lines):
            self._left_out(lines.pop())
        return lines

    def _is_heading(self, lines: List[Line]) -> bool:
        cells = lines[0].cells
        if not any(map(_is_number, cells)):
            return all(_is_word(cell) for cell in cells if cell)
        if _numbers_in(lines[0]) != list(range(1, self.count + 1)):
            return False                        # other numbers than those of the stations
        lead = self._lead([line for line in lines[1:] if any(map(_is_number, line.cells))])
        return any(cell.lower() == 'ticket' for cell in cells) or all(map(_is_word, cells[lead:lead + 2] or ['']))

    def _is_remark(self, lines: List[Line]) -> bool:
        """One cell of words in the column where the others have their tickets."""
        cells = [(k, cell) for k, cell in enumerate(lines[-1].cells) if cell]
        return len(cells) == 1 and _is_word(cells[0][1]) and self._lead(lines[:-1]) == 0 == cells[0][0]

    def _labelled(self, k: int, *labels: str) -> bool:
        return any(cell.lower() in labels for cell in self.lines[k].cells)

    def _left_out(self, line: Line) -> None:
        labels = [cell.lower() for cell in line.cells]
        if 'ticket' in labels:
            self.ticket = labels.index('ticket')
        words = ascii(', '.join(filter(None, line.cells)))[1:-1]
        self.notes.append(f'line {line.row} ({words[:40]}{"..." if len(words) > 40 else ""}): left out')

    # columns

    def _drop(self, leading: bool) -> None:
        """Leaves out columns in which nothing stands: those in front, or all."""
        full = [any(line.cells[c] for line in self.lines) for c in range(len(self.columns))]
        start = full.index(True) if leading and True in full else 0
        keep = [c for c in range(len(full)) if (c >= start if leading else full[c])]
        gone = [column(self.columns[c]) for c in range(len(full)) if c not in keep]
        if gone:
            self.notes.append(f'blank column{"" if len(gone) == 1 else "s"} {" ".join(gone)}: left out')
            self.lines = [line._replace(cells=[line.cells[c] for c in keep], width=line.width - len(gone))
                          for line in self.lines]
            self.columns = [self.columns[c] for c in keep]

    def _lead(self, guests: Sequence[Line]) -> int:
        """How many columns in front of the tickets have names, or nothing."""
        width = len(self.columns)
        return next((c for c in range(width) if any(line.cells[c] and not _is_word(line.cells[c]) for line in guests)),
                    width) if guests else 0

    def _span(self, line: Line) -> Tuple[int, int]:
        """First and last column of asks or bays; in front of them are only labels."""
        for k, cell in enumerate(line.cells):
            if cell and not _is_word(cell):
                return k, max(c for c, other in enumerate(line.cells) if other)
        return 0, 0

    def _columns(self) -> Tuple[int, int, int]:
        """The column of the tickets, that of the first ask, and how many stations there are."""
        lead, first = self.ticket if self.ticket >= 0 else self._lead(self.lines[2:]), self._span(self.lines[0])[0]
        if first > 1 and first not in (lead, lead + 2) and self.ticket < 0:
            self._drop(leading=False)
            lead, first = self._lead(self.lines[2:]), self._span(self.lines[0])[0]
        (first, last), (other, end) = self._span(self.lines[0]), self._span(self.lines[1])
        for mine, theirs in ((first, other), (last, end)):
            if mine != theirs:
                row, c = (self.lines[0], mine) if (mine < theirs) == (mine == first) else (self.lines[1], theirs)
                raise Untidy(f'cell {self._cell(row, c)} has no counterpart: lines {self.lines[0].row} and '
                             f'{self.lines[1].row} have an ask and the bays of each station, in the same columns')
        if first != lead + 2 and not any(cell for line in self.lines[2:] for cell in line.cells[:lead]):
            lead = 0
        labelled = first == 1 and all(line.cells[0] for line in self.lines[:2])
        if len(self.lines) > 2 and first not in (0, lead, lead + 2) and not labelled:
            raise Untidy(f'the asks begin in column {self._letters(first)} and the tickets in column '
                         f'{self._letters(lead)}: asks stand above their bids, from two columns after the tickets on; '
                         'a heading with the word ticket above the guests tells where those are')
        return lead, first, last - first + 1

    def _letters(self, index: int) -> str:
        return column(self.columns[index] if index < len(self.columns) else index)

    def _cell(self, line: Line, index: int) -> str:
        return f'{self._letters(index)}{line.row}'

    # cells

    def _stations_line(self, line: Line, first: int, count: int) -> List[Tuple[str, str]]:
        label = ' '.join(filter(None, line.cells[:first]))
        if label:
            self.notes.append(f'line {line.row}: label {ascii(label)} left out')
        return self._numbers(line, first, first + count)

    def _guest_line(self, line: Line, start: int, end: int) -> List[Tuple[str, str]]:
        beyond = next((c for c in range(end, len(line.cells)) if line.cells[c]), None)
        if beyond is not None:
            self._wrong(line, beyond, f'no station is there: {end - start - 2} have an ask')
        if re.search(r'[^\W\d_]', line.cells[start]) and line.cells[start][0] != '#' and self.ticket < 0:
            self._wrong(line, start, 'not a ticket, which is a whole number; if it is a name, put a heading above the '
                        'guests, with the word ticket over the tickets')
        numbers = self._numbers(line, start, end)
        if line.width < end and (len({other.width for other in self.lines}) > 1 or start and self.ticket < 0):
            raise Untidy(f'cell {self._cell(line, line.width)} is missing: line {line.row} ends before it')
        return numbers

    def _numbers(self, line: Line, start: int, end: int) -> List[Tuple[str, str]]:
        """Each number with the cell that it stood in."""
        cells = line.cells + [''] * (end - len(line.cells))
        for c in range(start, end):
            if cells[c] and not _is_number(cells[c]):
                self._wrong(line, c, _advice(cells[c]))
        return [(_whole(cells[c]), self._cell(line, c)) for c in range(start, end)]

    def _wrong(self, line: Line, index: int, why: str) -> NoReturn:
        raise Untidy(f'cell {self._cell(line, index)} is {ascii(line.cells[index][:20])}: {why}')

    def _notes(self, lead: int, first: int, count: int) -> None:
        ends = [first + count] * 2 + [lead + 2 + count] * (len(self.lines) - 2)
        longer = sum(line.width > end for line, end in zip(self.lines, ends))
        shorter = sum(line.width < end for line, end in zip(self.lines, ends))
        zeros = sum(cell != _whole(cell) for line in self.lines for cell in line.cells)
        for found, words in ((longer, f'blank cells at the end of {plural(longer, "line")}: left out'),
                             (shorter, 'last column, blank and not exported: put at the end of '
                              f'{plural(shorter, "line")}'),
                             (zeros, f"'.0' after {plural(zeros, 'whole number')}: left out"),
                             (lead * (len(self.lines) - 2),
                              f'tickets in column {self._letters(lead)}, what stands in front of them: left out')):
            if found:
                self.notes.append(words)

    def _read(self, places: List[List[Tuple[str, str]]]) -> bytes:
        """The text, once the engine has read it and would clear it."""
        text = ''.join(','.join(number for number, _ in line) + '\r\n' for line in places).encode()
        try:
            Market.from_csv(text).to_sheet()
        except Refused as refused:
            spot = text_place(refused)
            line = places[min(spot[0], len(places)) - 1] if spot else []
            where = f'cell {line[min(spot[1], len(line)) - 1][1]}: ' if spot and line else ''
            words = [refused.text] if refused.number != 22 or not refused.where.detail else []
            raise Untidy(where + ': '.join(filter(None, [*words, refused.where.detail])), refused.number) from None
        return text
