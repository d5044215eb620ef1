"""Reads a journal of `local` by the rules of docs/CHANNEL.md. Used by what_the_wire_shows.py.

`read_journal(NAME)` gives a Wire: the catalog, the asks with what came back, and each move in words. A file that is no
journal raises Refused, with one line that says where and why.
"""
import collections
import io
import re

VERSION = 2
KINDS = {1: 'HELLO', 2: 'ASK', 3: 'MORE', 4: 'BYE', 17: 'WELCOME', 18: 'ROWS', 19: 'DONE', 20: 'SORRY'}
TESTS = {1: '= ', 2: '<> ', 3: '< ', 4: '<= ', 5: '> ', 6: '>= ', 7: 'is NULL', 8: 'is not NULL'}
WANTED = {'hello': ('HELLO',), 'turn': ('ASK', 'BYE'), 'more': ('MORE',)}
MOVE = re.compile(r'(dial) (ok|failed)|(send) ((?:[0-9a-f]{2})+) (ok|failed)|'
                  r'(take) ([1-9][0-9]{0,4}) (end|failed|(?:[0-9a-f]{2})+)|(close)')
TABLE = re.compile(r'CREATE TABLE ([a-z0-9_]+) \(id INTEGER PRIMARY KEY((?:, [^,]+)*)\);')
COLUMN = re.compile(r'([a-z0-9_]+) (?:INTEGER|CHAR\(([1-9]|[1-5][0-9]|6[0-4])\))'
                    r'(?: REFERENCES ([a-z0-9_]+)\(id\)(?= HIDDEN)|( NULL))?( HIDDEN)?')
Column = collections.namedtuple('Column', 'name size child visible nullable')
Table = collections.namedtuple('Table', 'name columns rows')
Move = collections.namedtuple('Move', 'sender size words')


class Refused(Exception):
    pass


def amount(count, word):
    return '%d %s%s' % (count, word, '' if count == 1 else 's')


def plain(text):
    """A text without control characters: a question mark in the place of each."""
    return ''.join(it if it.isprintable() else '?' for it in text)


def shown(parts, most):
    more = len(parts) - most
    return ', '.join(parts[:most]) + (' and %d more' % more if more > 0 else '')


def read_table(line):
    """The table that a line of the canonical text declares; without its number of rows."""
    table = TABLE.fullmatch(line)
    found = [COLUMN.fullmatch(part) for part in table[2].split(', ')[1:]] if table else [None]
    if None in found:
        return None
    columns = [Column(it[1], int(it[2] or 0), it[3], not it[5], bool(it[4])) for it in found]
    return Table(table[1], [Column('id', 0, None, False, False)] + columns, 0)


def read_catalog(data):
    """The generation and the tables of a catalog's bytes, or nothing where they spell none."""
    length = int.from_bytes(data[12:16], 'big')
    lines = data[16:16 + length].decode('latin-1').split('\n')
    tables = [read_table(line) for line in lines[:-1]]
    counts = data[16 + length:]
    whole = data[:8] == b'GHOSTDB%c' % VERSION and tables and not lines[-1] and len(counts) == 4 * len(tables)
    if not whole or None in tables or data[8:12] == bytes(4):
        return None
    rows = [int.from_bytes(counts[4 * place:4 * place + 4], 'big') for place in range(len(tables))]
    if max(rows) > 1000000:
        return None
    return int.from_bytes(data[8:12], 'big'), [it._replace(rows=count) for it, count in zip(tables, rows)]


def width_of(column):
    """How many bytes a cell of a column has, without the flag where it may be NULL."""
    return column.size or 8


def read_cell(file, column):
    """The value of the cell that comes next, in words."""
    flag = file.read(1) if column.nullable else b'\1'
    if flag == b'\0' and file.read(width_of(column)) == bytes(width_of(column)):
        return 'NULL'
    if flag != b'\1':
        raise ValueError
    return read_value(file, column)


def read_value(file, column):
    """The value of a cell without its flag, in words."""
    cell = file.read(width_of(column))
    if len(cell) != width_of(column):
        raise ValueError
    if not column.size:
        return str(int.from_bytes(cell, 'big') - 2 ** 63)
    text = cell.rstrip(b'\0')
    if any(not 0x20 <= byte <= 0x7E for byte in text):
        raise ValueError
    return "'%s'" % text.decode('ascii').replace("'", "''")


def read_test(file, column, code):
    """What a code says of the values of a column, in words; the literal's cell comes next where it has one."""
    return TESTS[code] + (read_value(file, column) if code < 7 else '')


def group_words(group):
    words = ' or '.join('%s %s' % (column.name, test) for column, test in group)
    return '(%s)' % words if len(group) > 1 else words


def row_words(row):
    return '%d (%s)' % (row[0], ', '.join(row[1])) if row[1] else '%d' % row[0]


class Ask:
    """An ask, and what came back."""

    def __init__(self, payload, tables):
        file = io.BytesIO(payload)
        self.table = tables[file.read(1)[0]]
        places = list(file.read(file.read(1)[0]))
        self.columns = [self.table.columns[place] for place in places]
        self.groups, used, more = [], list(self.columns), False
        for _ in range(file.read(1)[0]):
            column, code = self.table.columns[file.read(1)[0]], file.read(1)[0]
            if not more:
                self.groups.append([])
            self.groups[-1].append((column, read_test(file, column, code % 128)))
            used.append(column)
            more = code >= 128
        is_good = places == sorted(set(places)) and all(it.visible for it in used) and not more
        if file.read() or not is_good or sum(map(len, self.groups)) > 16:
            raise ValueError
        self.rows, self.frames, self.size, self.end = [], 0, 0, 'no answer came to its end'

    def words(self):
        columns = ', '.join(it.name for it in self.columns)
        where = ' and '.join(group_words(it) for it in self.groups)
        what = 'identifier and %s' % columns if columns else 'identifier alone'
        return 'of %s the %s, of %s' % (self.table.name, what, 'the rows where ' + where if where else 'all rows')

    def add_rows(self, payload):
        """Adds the rows of a frame, and returns them in words."""
        file, found, last = io.BytesIO(payload), [], self.rows[-1][0] if self.rows else 0
        while file.tell() < len(payload):
            row = int.from_bytes(file.read(4), 'big'), [read_cell(file, it) for it in self.columns]
            if not last < row[0] <= self.table.rows:
                raise ValueError
            last = row[0]
            found.append(row)
        self.rows += found
        self.frames += 1
        return shown(['%s %s' % (self.table.name, row_words(row)) for row in found], 4)


class Wire:
    """What is known of a session after each of its moves; a move that cannot follow is refused."""

    def __init__(self, lines):
        self.lines = lines
        self.awaits, self.may_close, self.taken, self.welcome = 'dial', False, b'', b''
        self.catalog, self.generation, self.asks, self.moves = None, None, [], []

    def go(self, line):
        found = MOVE.fullmatch(line)
        if not found:
            raise Refused('this is no move: dial, send, take or close, as the document writes them')
        words = [it for it in found.groups() if it]
        may_close, self.may_close = self.may_close, False
        if words[0] == 'dial':
            self.dial(words[1] == 'ok')
        elif words[0] == 'send':
            self.send(bytes.fromhex(words[1]), words[2] == 'ok')
        elif words[0] == 'take':
            self.take(int(words[1]), words[2])
        else:
            self.close(may_close)

    def dial(self, is_done):
        if self.awaits != 'dial':
            raise Refused('a dial, and it is not the first move')
        self.awaits = 'hello' if is_done else 'close'
        self.moves.append(Move('key', 0, 'dial' if is_done else 'dial, which failed'))

    def close(self, may_close):
        if self.awaits != 'close' and not may_close:
            raise Refused('a close, where the key has no cause to close')
        why = '' if self.awaits == 'close' else ': this WELCOME is not that of the key'
        self.awaits = 'nothing'
        self.moves.append(Move('key', 0, 'close' + why))

    def send(self, data, is_done):
        kind, version, length, serial = read_header(data)
        if kind not in WANTED.get(self.awaits, ()) or version != VERSION or len(data) != 8 + length:
            raise Refused('a send that cannot stand here: it is no whole frame of the kind that is due')
        words = self.frame_words(kind, serial, data[8:])
        self.moves.append(Move('key', len(data), words if is_done else words + ', and the sending failed'))
        self.awaits = 'close' if kind == 'BYE' or not is_done else 'welcome' if kind == 'HELLO' else 'reply'

    def frame_words(self, kind, serial, payload):
        if serial != {'ASK': len(self.asks) + 1, 'MORE': len(self.asks)}.get(kind, 0):
            raise Refused('a send whose serial is not the one that is due')
        if len(payload) != {'HELLO': 4, 'ASK': len(payload)}.get(kind, 0):
            raise Refused('a send whose payload has another length than this kind of frame')
        if kind == 'HELLO':
            self.generation = int.from_bytes(payload, 'big')
            return 'HELLO, generation %d' % self.generation
        if kind != 'ASK':
            return kind if kind == 'BYE' else 'MORE for ask %d' % serial
        try:
            self.asks.append(Ask(payload, self.catalog[1]))
        except (IndexError, KeyError, ValueError):
            raise Refused('an ask that the catalog does not allow, of visible columns and values of their kind')
        return 'ASK %d: %s' % (serial, self.asks[-1].words())

    def missing(self):
        """How many bytes the next Take asks for."""
        return 8 - len(self.taken) if len(self.taken) < 8 else 8 + read_header(self.taken)[2] - len(self.taken)

    def take(self, count, answer):
        if self.awaits not in ('welcome', 'reply') or count != self.missing():
            raise Refused('a take that cannot stand here: it asks for other bytes than those that are missing')
        if answer in ('end', 'failed'):
            self.awaits = 'close'
            self.moves.append(Move('host', 0, 'the end of the stream' if answer == 'end' else 'a take, which failed'))
            return
        if len(answer) > 2 * count:
            raise Refused('a take of a piece that is longer than what it asks for')
        self.taken += bytes.fromhex(answer)
        try:
            words = self.took()
        except (IndexError, ValueError):
            words, self.awaits, self.may_close = 'bytes that the key refuses as invalid', 'close', False
            if self.asks:
                self.asks[-1].end = 'an invalid frame came, and the key closes'
        self.moves.append(Move('host', len(answer) // 2, words))

    def took(self):
        """The words for the bytes that were just taken; what is invalid raises ValueError."""
        if len(self.taken) < 8:
            return 'the first %d bytes of a header' % len(self.taken)
        kind, _, length, _ = read_header(self.taken)
        if len(self.taken) == 8:
            self.judge_header(*read_header(self.taken))
            return 'header of %s, %s to come' % (kind, amount(length, 'byte'))
        if self.missing():
            return 'a piece of %s, %s to come' % (kind, amount(self.missing(), 'byte'))
        payload, self.taken = self.taken[8:], b''
        return self.welcomed(payload) if kind == 'WELCOME' else self.replied(kind, payload)

    def judge_header(self, kind, version, length, serial):
        if self.awaits == 'welcome':
            is_good, self.may_close = kind == 'WELCOME' and serial == 0 and 2 <= length <= 2040, True
        else:
            width = 4 + sum(width_of(it) + it.nullable for it in self.asks[-1].columns)
            lengths = {'ROWS': length, 'DONE': 4, 'SORRY': 1}
            is_good = serial == len(self.asks) and lengths.get(kind) == length and 0 < length <= 2040
            is_good = is_good and (kind != 'ROWS' or length % width == 0)
        if version != VERSION or not is_good:
            raise ValueError

    def welcomed(self, payload):
        self.welcome += payload[1:]
        self.may_close, self.catalog = True, read_catalog(self.welcome)
        if payload[0] != (1 if self.catalog else 0) or self.catalog and self.catalog[0] != self.generation:
            self.catalog = None
            raise ValueError
        self.awaits = 'turn' if self.catalog else 'welcome'
        return 'the catalog: schema, and number of rows of each table' if self.catalog else 'a part of the catalog'

    def replied(self, kind, payload):
        ask, number = self.asks[-1], int.from_bytes(payload, 'big')
        ask.size += 8 + len(payload)
        if kind == 'ROWS':
            words, self.awaits = ask.add_rows(payload), 'more'
            return words
        if number != len(ask.rows) if kind == 'DONE' else not number:
            raise ValueError
        ask.end = 'DONE counts %d' % number if kind == 'DONE' else 'SORRY with code %d ended it' % number
        self.awaits = 'turn'
        return ask.end


def read_header(data):
    if len(data) < 8:
        raise Refused('a send of fewer bytes than a header has')
    return KINDS.get(data[0]), data[1], int.from_bytes(data[2:4], 'big'), int.from_bytes(data[4:8], 'big')


def read_journal(name):
    with open(name, 'rb') as file:
        lines = file.read().decode('latin-1').split('\n')
    wire = Wire(lines[:-1])
    for number, line in enumerate(lines[:-1], 1):
        try:
            wire.go(line)
        except Refused as fault:
            raise Refused('%s, line %d: %s' % (name, number, fault))
    if lines[-1]:
        raise Refused('%s, line %d: this line has no end' % (name, len(lines)))
    return wire
