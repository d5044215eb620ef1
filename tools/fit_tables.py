#!/usr/bin/env python3
"""Makes of raw tables what `load` takes: a schema, a CSV file for each table, and a report of what was found and changed.

    fit_tables.py FROM TO [options]

FROM is a folder of CSV files, one a table, or an SQLite file. TO is a folder that is made: schema.sql, tables/NAME.csv and
report.txt. Nothing but the report is written where a fault is left; every fault of every file is counted by column, and
the status is 1.

What is read
    Fields divided by commas, semicolons, tabs or bars; UTF-8 with or without a byte order mark, UTF-16 with one, else
    Windows-1252; any line ends. The first record names the columns; where it holds values instead, columns are c1, c2 ..
What is found
    Kinds and widths, and NULL for a column with empty fields. The column that is a table's key: `id`, or one named after
    the table, or the first whose values are unique. Columns that refer to another table: named after it (or told by
    --refers), and each value is a key there.
What is changed, each with its count in the report
    Rows get the identifiers 1, 2, 3 ..; the old key is kept in a column of its own; references are followed. Names become
    words in lower case. Decimals become whole numbers of tenths, hundredths ..; dates become 2024-01-31, which sorts
    right; accents are folded (ae for a with two dots, e for e with any accent); control characters become blanks.
What is proposed
    Which columns to hide, and how many rows the visible ones would single out.

Options
    --tables A,B,..         takes these tables alone
    --refers A.COLUMN=B     this column of A refers to B             (may stand several times)
    --plain A.COLUMN        this column refers to no table           (may stand several times)
    --key A.COLUMN          this column is A's key                   (may stand several times)
    --hide A.COLUMN, --show A.COLUMN   in place of what is proposed  (may stand several times)
    --empty NUMBER          what stands for an empty number, as -1, in place of NULL
    --dates dmy|mdy         how 03/04/2024 is meant, where the file does not tell
    --cut                   cuts texts of more than 64 bytes
    --unknown               rows that refer to nothing refer to a row that is added at the end of that table
"""
import argparse
import codecs
import collections
import csv
import os
import re
import sqlite3
import sys
import time
import unicodedata

MOST_ROWS, MOST_COLUMNS, MOST_TABLES, MOST_BYTES, MOST_CHARS, MOST_NAME = 1000000, 24, 12, 67108864, 64, 32
RESERVED = set('''and between by char count create from group hidden in int integer is key max min not null or primary
    references select sum table where'''.split())
INTEGER = re.compile(r'[+-]?(0|[1-9][0-9]*)\Z')
DECIMAL = re.compile(r'[+-]?(0|[1-9][0-9]*)?[.,][0-9]{1,9}\Z')
ISO_DATE = re.compile(r'([0-9]{4})-([0-9]{1,2})-([0-9]{1,2})([T ][0-9:.+Z-]*)?\Z')
OTHER_DATE = re.compile(r'([0-9]{1,2})[./-]([0-9]{1,2})[./-]([0-9]{4})( [0-9:]+)?\Z')
PRIVATE = re.compile(r'''name|famil|given|surname|first|last|birth|born|dob|geb|naiss|nacim|nascit|phone|tel|mobile|fax|mail|address|addr|street
    |strasse|zip|plz|postal|city|mrn|ssn|passport|insur|iban|account|card|note|comment|remark|text|diag|bemerk|befund|notiz|reason|result|finding|value|plate
    |licen[cs]e|login|user|pass'''.replace('\n    ', ''), re.I)
FOLDED = {'ä': 'ae', 'ö': 'oe', 'ü': 'ue', 'Ä': 'Ae', 'Ö': 'Oe', 'Ü': 'Ue', 'ß': 'ss', 'æ': 'ae', 'Æ': 'Ae', 'ø': 'oe', 'Ø': 'Oe',
          'å': 'aa', 'Å': 'Aa', 'ł': 'l', 'Ł': 'L', 'đ': 'd', 'Đ': 'D', 'ð': 'd', 'þ': 'th', 'œ': 'oe', 'Œ': 'Oe', 'ı': 'i',
          '€': 'EUR', '‘': "'", '’': "'", '“': '"', '”': '"', '„': '"', '–': '-', '—': '-', '…': '...', '\u00a0': ' ', '°': ' deg',
          'µ': 'u', '²': '2', '³': '3', '×': 'x'}


class Stop(Exception):
    """What keeps the tables from being read at all."""


def counted(number, what):
    """A number of things: `1 row`, `2 rows`."""
    return '%d %s%s' % (number, what, '' if number == 1 else 's')


def say(text):
    print(text, file=sys.stderr, flush=True)


class Progress:
    """A word on standard error now and then, where a table is long."""

    def __init__(self, what):
        self.what, self.last = what, time.monotonic()

    def at(self, rows):
        if time.monotonic() - self.last > 2:
            self.last = time.monotonic()
            say('%s: %d rows so far' % (self.what, rows))


# Reading

def encoding_of(path):
    """The encoding of a file, and what the report says of it."""
    with open(path, 'rb') as file:
        head = file.read(4)
        if head[:2] in (b'\xff\xfe', b'\xfe\xff'):
            return 'utf-16', 'UTF-16'
        file.seek(0)
        decoder = codecs.getincrementaldecoder('utf-8')()
        try:
            for piece in iter(lambda: file.read(1 << 20), b''):
                decoder.decode(piece)
            decoder.decode(b'', True)
        except UnicodeDecodeError:
            return 'cp1252', 'Windows-1252'
    return ('utf-8-sig', 'UTF-8 with a byte order mark') if head[:3] == b'\xef\xbb\xbf' else ('utf-8', 'UTF-8')


def divider_of(path, encoding):
    """What divides the fields: that which gives the first records most often the same number of fields above one."""
    with open(path, encoding=encoding, newline='', errors='replace') as file:
        head = file.read(65536)
    best = (0, 0, ',')
    for divider in ',;\t|':
        try:
            counts = collections.Counter(len(it) for it in list(csv.reader(head.splitlines(True), delimiter=divider))[:-1] or
                                         csv.reader(head.splitlines(True), delimiter=divider) if it)
        except csv.Error:
            continue
        fields, often = max(counts.items(), key=lambda it: it[1], default=(1, 0))
        if fields > 1 and (often, fields) > best[:2]:
            best = (often, fields, divider)
    return best[2]


class CsvSource:
    """A raw table that is a CSV file."""

    def __init__(self, path):
        self.path, self.label = path, os.path.basename(path)
        self.encoding, told = encoding_of(path)
        self.divider = divider_of(path, self.encoding)
        self.notes = ['read as %s, fields divided by %s' % (told, {',': 'commas', ';': 'semicolons', '\t': 'tabs', '|': 'bars'}[self.divider])]
        record = next(self.records(), (0, []))[1]
        self.has_names = all(it.strip() and not re.match(r'[+-]?[0-9.,]+\Z', it.strip()) for it in record) and len(set(record)) == len(record)
        self.names = [it.strip() for it in record] if self.has_names else ['c%d' % (at + 1) for at in range(len(record))]
        if not self.has_names:
            self.notes.append('its first line holds values and no names: the columns are called %s' % ', '.join(self.names))
        self.refers = {}

    def records(self):
        """The records with the line on which each begins; an empty line is none."""
        csv.field_size_limit(sys.maxsize)
        with open(self.path, encoding=self.encoding, newline='', errors='replace') as file:
            reader = csv.reader(file, delimiter=self.divider)
            line = 1
            for record in reader:
                if record:
                    yield line, record
                line = reader.line_num + 1

    def rows(self):
        found = self.records()
        if self.has_names:
            next(found)
        yield from found


class SqliteSource:
    """A raw table that is one of an SQLite file."""

    def __init__(self, base, name):
        self.base, self.name, self.label, self.notes = base, name, name, ['read from the SQLite file']
        self.names = [it[1] for it in base.execute('PRAGMA table_info(%s)' % self.quoted(name))]
        self.refers = {it[3]: it[2] for it in base.execute('PRAGMA foreign_key_list(%s)' % self.quoted(name))}

    @staticmethod
    def quoted(name):
        return '"%s"' % name.replace('"', '""')

    def rows(self):
        for number, row in enumerate(self.base.execute('SELECT * FROM %s' % self.quoted(self.name)), 1):
            yield number, ['' if it is None else it.decode('latin-1') if isinstance(it, bytes) else str(it) for it in row]


def sources_of(where):
    """The raw tables, by the names that their files have."""
    if os.path.isdir(where):
        paths = sorted(it for it in os.listdir(where) if it.lower().endswith(('.csv', '.tsv', '.txt')))
        if not paths:
            raise Stop('%s: there is no file that ends with .csv, .tsv or .txt' % where)
        sources = {os.path.splitext(it)[0]: CsvSource(os.path.join(where, it)) for it in paths}
        for name in [it for it, source in sources.items() if not source.names]:
            say('%s: the file is empty, and left out' % sources.pop(name).label)
        return sources
    with open(where, 'rb') as file:
        if file.read(16) != b'SQLite format 3\0':
            raise Stop('%s: this is no folder, and no SQLite file' % where)
    base = sqlite3.connect('file:%s?mode=ro' % os.path.abspath(where).replace('?', '%3f'), uri=True)
    names = [it[0] for it in base.execute("SELECT name FROM sqlite_master WHERE type = 'table' AND name NOT LIKE 'sqlite_%' ORDER BY name")]
    if not names:
        raise Stop('%s: there is no table in it' % where)
    return {it: SqliteSource(base, it) for it in names}


# Names

def folded(text):
    """A text in characters 0x20 to 0x7E; what has no likeness there becomes a question mark."""
    if text.isascii() and text.isprintable():
        return text
    told = []
    for sign in text:
        if ' ' <= sign <= '~':
            told.append(sign)
        elif sign in FOLDED:
            told.append(FOLDED[sign])
        elif ord(sign) < 32 or ord(sign) == 127:
            told.append(' ')
        else:
            plain = ''.join(it for it in unicodedata.normalize('NFKD', sign) if ' ' <= it <= '~')
            told.append(plain or '?')
    return ''.join(told)


def shown(text):
    """A text as the report shows it, in which nothing moves the cursor."""
    return ''.join(it if it.isprintable() else ' ' for it in text)


def word_of(name, taken):
    """A name as the schema takes it: a word in lower case of at most 32 bytes, not reserved, not taken."""
    word = re.sub('[^a-z0-9_]+', '_', folded(name).lower()).strip('_') or 'c'
    word = ('c_' + word if word[0].isdigit() else word)[:MOST_NAME - 3]
    if word in RESERVED:
        word += '_'
    number, whole = 1, word
    while whole in taken:
        number += 1
        whole = '%s_%d' % (word, number)
    taken.add(whole)
    return whole


# What a column holds

class Column:
    """A raw column: how often each value stands there, and what it becomes."""

    def __init__(self, raw, name):
        self.raw, self.name = raw, name
        self.counts = collections.Counter()
        self.child, self.kind, self.hidden, self.why = None, None, False, ''
        self.notes, self.faults = [], []

    def settle(self, options):
        """Finds the kind, and for each value what it becomes: `fitted` has it, or nothing where the value is a fault."""
        filled = [it for it in self.counts if it.strip()]
        signs = [it.strip() for it in filled]
        empties = sum(count for it, count in self.counts.items() if not it.strip())
        if filled and all(INTEGER.match(it) for it in signs):
            self.numbers({it: int(it) for it in filled}, empties, options, '')
        elif filled and all(INTEGER.match(it) or DECIMAL.match(it) for it in signs) and not {'.', ','} <= set(''.join(signs)):
            self.decimals(filled, empties, options)
        elif filled and all(ISO_DATE.match(it) for it in signs):
            self.texts({it: self.iso(it.strip()) for it in filled}, options)
        elif filled and all(OTHER_DATE.match(it) for it in signs):
            self.dates(filled, options)
        else:
            self.texts({it: it for it in filled}, options)

    def fault(self, values, what, cure):
        count = sum(self.counts[it] for it in values)
        if count:
            self.faults.append((count, min(values, key=lambda it: (len(it), it)), what, cure))

    def numbers(self, made, empties, options, told):
        self.kind = 'INTEGER'
        wide = [it for it, number in made.items() if not -2 ** 63 <= number < 2 ** 63]
        self.fault(wide, 'outside 64 bits', 'write them as texts, in quotes that hold a letter, or leave the column out')
        self.fitted = {it: str(number) for it, number in made.items() if it not in set(wide)}
        if empties and options.empty is not None:
            self.notes.append('%s became %d: a query asks for the others by <> %d' % (counted(empties, 'empty field'), options.empty, options.empty))
            self.fitted.update((it, str(options.empty)) for it in self.counts if not it.strip())
            self.fault([it for it, number in made.items() if number == options.empty], 'with the number that is to stand for empty ones',
                       'choose another one by --empty')
        else:
            self.nulls()
        if told:
            self.notes.append(told)

    def nulls(self):
        """Lets empty fields be NULL, where there are some."""
        empty = [it for it in self.counts if not it.strip()]
        if empty:
            self.kind += ' NULL'
            self.notes.append(counted(sum(self.counts[it] for it in empty), 'empty field') + ' became NULL: a query asks for them by IS NULL')
            self.fitted.update((it, '') for it in empty)

    def decimals(self, filled, empties, options):
        places = max(len(re.split('[.,]', it.strip())[1]) if re.search('[.,]', it) else 0 for it in filled)

        def whole(text):
            sign, text = ('-' if text.startswith('-') else ''), text.lstrip('+-')
            before, _, behind = text.replace(',', '.').partition('.')
            return int(sign + (before or '0') + behind.ljust(places, '0'))
        self.numbers({it: whole(it.strip()) for it in filled}, empties, options,
                     'decimals became whole numbers: 1 is now %d' % 10 ** places)

    @staticmethod
    def iso(text):
        year, month, day, rest = ISO_DATE.match(text).groups()
        return '%s-%02d-%02d%s' % (year, int(month), int(day), rest or '')

    def dates(self, filled, options):
        parts = {it: OTHER_DATE.match(it.strip()).groups() for it in filled}
        firsts, seconds = (max(int(it[at]) for it in parts.values()) for at in (0, 1))
        order = 'dmy' if firsts > 12 >= seconds else 'mdy' if seconds > 12 >= firsts else options.dates
        if all('.' in it for it in filled) and seconds <= 12:
            order = 'dmy'
        if firsts > 12 and seconds > 12:
            return self.texts({it: it for it in filled}, options)
        if order is None:
            self.kind, self.fitted = 'CHAR(10)', {}
            return self.fault(filled, 'with day and month not to be told apart', 'say --dates dmy or --dates mdy')
        day, month = (0, 1) if order == 'dmy' else (1, 0)
        self.notes.append('dates became year-month-day, which sorts right')
        self.texts({it: '%s-%02d-%02d%s' % (at[2], int(at[month]), int(at[day]), at[3] or '') for it, at in parts.items()}, options)

    def texts(self, made, options):
        plain = {it: folded(text) for it, text in made.items()}
        changed = [it for it, text in plain.items() if text != made[it] and '?' not in text.replace('?', '', made[it].count('?'))]
        lost = [it for it, text in plain.items() if text.count('?') > made[it].count('?')]
        if changed:
            self.notes.append('accents folded or control characters made blanks in ' + counted(sum(self.counts[it] for it in changed), 'field'))
        if lost:
            self.notes.append('characters without a likeness became ? in ' + counted(sum(self.counts[it] for it in lost), 'field'))
        long = [it for it, text in plain.items() if len(text) > MOST_CHARS]
        if options.cut:
            if long:
                self.notes.append('cut to 64 bytes: ' + counted(sum(self.counts[it] for it in long), 'text'))
            plain = {it: text[:MOST_CHARS] for it, text in plain.items()}
        else:
            self.fault(long, 'longer than 64 bytes', 'say --cut to cut them, or shorten them')
        self.kind = 'CHAR(%d)' % min(MOST_CHARS, max([1, *map(len, plain.values())]))
        self.fitted = {it: text for it, text in plain.items() if len(text) <= MOST_CHARS}
        self.nulls()


class Table:
    """A raw table, its columns, its key and what refers to it."""

    def __init__(self, raw, name, source):
        self.raw, self.name, self.source, self.rows = raw, name, source, 0
        taken = {'id'}
        self.columns = [Column(it, word_of('old_id' if it.strip().lower() == 'id' else it, taken)) for it in source.names]
        self.key, self.keys, self.faults, self.notes = None, {}, [], list(source.notes)
        self.added, self.first_lines = False, {}

    def read(self):
        """Counts the values of each column."""
        progress, width, odd, block = Progress(self.source.label), len(self.columns), 0, []
        for line, record in self.source.rows():
            if len(record) != width:
                odd += 1
                self.first_lines.setdefault('fields', line)
                continue
            block.append(record)
            if len(block) == 20000:
                self.count(block)
                block = []
                progress.at(self.rows)
        self.count(block)
        if odd:
            self.faults.append('%s without just %d fields, the first in line %d: mend them, or the quotes before them'
                               % (counted(odd, 'record'), width, self.first_lines['fields']))
        if self.rows > MOST_ROWS:
            self.faults.append('it has %d rows, and a table has at most %d' % (self.rows, MOST_ROWS))

    def count(self, block):
        self.rows += len(block)
        for column, values in zip(self.columns, zip(*block)):
            column.counts.update(values)

    def find_key(self, wanted):
        """The column that is the key: the one that is told, else by its name, else the first that is unique; none where no column is."""
        unique = [it for it in self.columns if len(it.counts) == self.rows and not any(not value.strip() for value in it.counts)]
        if wanted:
            self.key = next((it for it in self.columns if it.name == wanted or it.raw.strip().lower() == wanted), None)
            if self.key is None:
                self.faults.append('--key: it has no column %s' % wanted)
            elif self.key not in unique and self.rows:
                self.faults.append('the key %s has empty values, or some that stand twice' % self.key.raw)
            return
        names = ['old_id', 'id', self.name, self.name + '_id', self.name + 'id', 'id_' + self.name, self.name + '_code', self.name + '_key',
                 self.name + '_no', self.name + '_nr', self.name + '_number', 'code', 'key', 'nr', 'no', 'number']
        by_name = {it.name: it for it in unique}
        self.key = next((by_name[it] for it in names if it in by_name), None)
        if self.key is None and unique:
            self.key = unique[0]
        named = [it for it in self.columns if it.name in names[:8] and it not in unique]
        if named and self.rows:
            column = named[0]
            twice = sum(1 for count in column.counts.values() if count > 1)
            self.notes.append('%s is named like a key and is none: %d values stand more than once' % (column.raw, twice))

    def number(self):
        """The identifier of each key, which is its row's place."""
        if self.key is None:
            return
        progress, width, place = Progress(self.source.label), len(self.columns), self.columns.index(self.key)
        self.keys = {}
        for number, (_, record) in enumerate((it for it in self.source.rows() if len(it[1]) == width), 1):
            self.keys[record[place].strip()] = number
            if number % 65536 == 0:
                progress.at(number)


# What refers to what

def is_named_after(column, table):
    """Whether a column's name says that it refers to a table."""
    name, other = column.name, table.name
    others = {other, other[:-1] if other.endswith('s') and len(other) > 3 else other, other + 's'}
    for it in others:
        if name in (it, it + '_id', it + 'id', 'id_' + it, 'fk_' + it, it + '_fk', it + '_key', it + '_code', it + '_no', it + '_nr', it + '_number', it + '_ref'):
            return True
    return table.key is not None and table.key.name not in ('old_id', 'key', 'code', 'nr', 'no', 'number', 'name') and name == table.key.name


def find_references(tables, options):
    """Settles which columns refer to which table; answers the faults."""
    faults = []
    by_name = {it.name: it for it in tables} | {it.raw.lower(): it for it in tables}
    told = dict(it.split('=', 1) for it in options.refers)
    for table in tables:
        for column in table.columns:
            full = '%s.%s' % (table.name, column.name)
            target = next((told[it] for it in (full, '%s.%s' % (table.raw, column.raw)) if it in told), None) or table.source.refers.get(column.raw)
            if full in options.plain or column is table.key and target is None:
                continue
            if target:
                child = by_name.get(target.lower())
                if child is None:
                    faults.append('%s refers to %s, which is no table here: take it in, or say --plain %s' % (full, target, full))
                elif child.key is None:
                    faults.append('%s refers to %s, which has no column that is its key: say --key %s.COLUMN' % (full, child.name, child.name))
                else:
                    column.child = child
                continue
            for child in tables:
                if child is not table and child.key is not None and is_named_after(column, child):
                    column.child = child
    return faults


def check_references(tables, options):
    """Counts the fields that refer to no row, and has them refer to an added row where that is asked for."""
    for table in tables:
        for column in table.columns:
            if column.child is None:
                continue
            keys = column.child.keys
            lost = [it for it in column.counts if it.strip() not in keys]
            known = sum(count for it, count in column.counts.items() if it.strip() in keys)
            column.kind, column.fitted = 'INTEGER', {it: str(keys[it.strip()]) for it in column.counts if it.strip() in keys}
            if lost and not known and '%s.%s' % (table.name, column.name) not in [it.split('=')[0] for it in options.refers]:
                table.notes.append('%s is named after %s, but none of its values is a key there: taken as plain values' % (column.raw, column.child.name))
                column.child = None
                column.settle(options)
            elif lost and options.unknown:
                column.child.added = True
                number = str(column.child.rows + 1)
                column.fitted.update((it, number) for it in lost)
                column.notes.append('%s to no row: these refer to row %s of %s, which was added' % (
                    counted(sum(column.counts[it] for it in lost), 'reference'), number, column.child.name))
            else:
                column.fault(lost, 'empty or no key of %s' % column.child.name,
                             'add these rows, or say --unknown to have them refer to a row that is added')


    for table in tables:
        for other in reached(tables, table.name)[1:] if table.added else []:
            next(it for it in tables if it.name == other).added = True


def tree_faults(tables):
    """Where the references form no tree, and the way out."""
    faults, parents = [], collections.defaultdict(list)
    for table in tables:
        for column in table.columns:
            if column.child is not None:
                parents[column.child.name].append((table, column))
    for child, named in parents.items():
        if len(named) < 2:
            continue
        owners = sorted({it.name for it, _ in named})
        told = ' and '.join('%s.%s' % (it.name, column.name) for it, column in named)
        if len(owners) == 1:
            faults.append('%s both refer to %s, and one column may: keep the one that queries follow, and say --plain for the others; or copy %s to a second file under another name'
                          % (told, child, child))
        else:
            faults.append('%s both refer to %s, and a table may be referred to once: these are %d databases; run this once with each of\n%s' % (
                told, child, len(owners), '\n'.join('        --tables ' + ','.join(reached(tables, it)) for it in roots_above(tables, owners))))
    roots = [it.name for it in tables if not parents[it.name]]
    if len(roots) > 1 and not faults:
        hints = ['        %s.%s holds keys of %s: --refers %s.%s=%s' % (owner.name, it.name, table.name, owner.name, it.name, table.name)
                 for table in tables if table.name in roots for owner, it in holders_of(table, tables)]
        faults.append('nothing links %s: say --refers A.COLUMN=B where a column refers to a table; else they are %d databases; run this once with each of\n%s' % (
            ', '.join(roots), len(roots), '\n'.join(hints + ['        --tables ' + ','.join(reached(tables, it)) for it in roots])))
    circles = [(table, it) for table in tables for it in table.columns if it.child is not None and table.name in reached(tables, it.child.name)]
    if circles and not faults:
        faults.append('references lead back to their own table: say --plain for one of ' + ', '.join('%s.%s' % (table.name, it.name) for table, it in circles))
    return faults


def holders_of(table, tables):
    """The columns of other tables, with these, that hold nothing but keys of a table, and many of them."""
    if table.key is None:
        return []
    keys = {it.strip() for it in table.key.counts}
    found = [(owner, it, {value.strip() for value in it.counts} - {''}) for owner in tables if owner is not table for it in owner.columns if it.child is None]
    return [(owner, it) for owner, it, held in found if held <= keys and 2 * len(held) >= min(len(keys), 40)]


def reached(tables, root):
    """The names of the tables that rows of a table lead to, itself the first."""
    by_name, found = {it.name: it for it in tables}, [root]
    for name in found:
        found += [it.child.name for it in by_name[name].columns if it.child is not None and it.child.name not in found]
    return found


def roots_above(tables, names):
    """The tables to which nothing refers and that lead to these, one for each way."""
    referred = {it.child.name for table in tables for it in table.columns if it.child is not None}
    roots = [it.name for it in tables if it.name not in referred]
    found = [it for it in roots if any(name in reached(tables, it) for name in names)]
    return found if len(found) > 1 else names


# What to hide

def propose_hidden(tables, options):
    """Settles which columns are hidden, each with its reason."""
    for table in tables:
        for column in table.columns:
            full, distinct = '%s.%s' % (table.name, column.name), len(column.counts)
            if column.child is not None:
                column.hidden, column.why = True, 'a reference, hidden in any case'
            elif full in options.hide:
                column.hidden, column.why = True, 'as you say'
            elif full in options.show:
                column.why = 'as you say'
            elif column is table.key and not any(it.child is table for other in tables for it in other.columns) and distinct < 3:
                column.why = 'few values'
            elif column is table.key:
                column.hidden, column.why = True, 'the old key names each row'
            elif PRIVATE.search(column.name):
                column.hidden, column.why = True, 'its name sounds like something about a person'
            elif table.rows >= 20 and distinct * 2 > table.rows:
                column.hidden, column.why = True, 'more than half of its values are another in each row'
            else:
                column.why = '%s in %s' % (counted(distinct, 'value') if distinct == 1 else '%d different values' % distinct, counted(table.rows, 'row'))


def singled_out(table):
    """How many rows are alone with their visible values, over all visible columns together, and what each column adds to it."""
    places = [at for at, it in enumerate(table.columns) if not it.hidden]
    if not places or not table.rows:
        return 0, []
    width = len(table.columns)
    whole = collections.Counter()
    singles = [collections.Counter() for _ in places]
    for _, record in table.source.rows():
        if len(record) == width:
            seen = tuple(record[it] for it in places)
            whole[seen] += 1
            for at in range(len(places)):
                if len(places) > 1:
                    singles[at][seen[:at] + seen[at + 1:]] += 1
    alone = sum(1 for it in whole.values() if it == 1)
    return alone, [(table.columns[place].name, sum(1 for it in rest.values() if it == 1)) for place, rest in zip(places, singles)] if len(places) > 1 else []


# Writing

def schema_text(tables):
    """The schema, children before the tables that refer to them."""
    done, lines = [], []
    while len(done) < len(tables):
        table = next(it for it in tables if it.name not in done and all(c.child is None or c.child.name in done for c in it.columns))
        done.append(table.name)
        parts = ['id INTEGER PRIMARY KEY']
        for it in table.columns:
            parts.append('%s %s%s%s' % (it.name, it.kind, ' REFERENCES %s(id)' % it.child.name if it.child is not None else '', ' HIDDEN' if it.hidden else ''))
        lines.append('CREATE TABLE %s (\n  %s\n);\n' % (table.name, ',\n  '.join(parts)))
    return '\n'.join(lines)


def write_table(table, folder):
    """Writes the fitted rows of a table, and answers how many bytes they take."""
    path, width, progress = os.path.join(folder, table.name + '.csv'), len(table.columns), Progress('writing ' + table.name)
    maps = [it.fitted.__getitem__ for it in table.columns]
    with open(path, 'w', encoding='ascii', newline='') as file:
        lines = csv.writer(file, lineterminator='\n')
        lines.writerow(['id', *[it.name for it in table.columns]])
        number, block = 1, []

        def put():
            columns = [map(fit, values) for fit, values in zip(maps, zip(*block))]
            lines.writerows(zip(map(str, range(number, number + len(block))), *columns))
        for _, record in table.source.rows():
            if len(record) == width:
                block.append(record)
                if len(block) == 20000:
                    put()
                    number += len(block)
                    block = []
                    progress.at(number - 1)
        if block:
            put()
        if table.added:
            lines.writerow([table.rows + 1, *['' if it.kind != 'INTEGER' else it.child.rows + 1 if it.child is not None else 0 for it in table.columns]])
    return os.path.getsize(path)


def report_of(tables, faults):
    """The lines of the report."""
    lines = []
    for table in tables:
        lines.append('%s: %s, from %s' % (table.name, counted(table.rows + table.added, 'row'), table.source.label))
        lines.append('  key: %s' % ('%s, kept as the column %s' % (table.key.raw, table.key.name) if table.key is not None else 'no column is one; rows are numbered'))
        lines += ['  ' + it for it in table.notes]
        lines += ['  FAULT: ' + it for it in table.faults]
        for it in table.columns:
            told = '  %-24s %-13s %-8s %s' % (it.name, it.kind, 'hidden' if it.hidden else 'visible', it.why)
            lines.append(told + (', to %s' % it.child.name if it.child is not None else '') + ('' if it.raw.strip().lower() == it.name else " (was '%s')" % shown(it.raw)))
            lines += ['      ' + note for note in it.notes]
            lines += ["      FAULT: %s %s, as '%s': %s" % (counted(count, 'field'), what, shown(value)[:40], cure) for count, value, what, cure in it.faults]
        if not faults:
            alone, rest = singled_out(table)
            if alone:
                lines.append('  %d of %d rows are alone with their visible values: whoever knows these knows the row, and the host sees them' % (alone, table.rows))
                lines += ['      without %s: %d' % it for it in rest]
        lines.append('')
    links = ['%s.%s = %s.id' % (table.name, it.name, it.child.name) for table in tables for it in table.columns if it.child is not None]
    if links and not faults:
        lines += ['a query that takes rows of two tables links them, by AND:', *('  ' + it for it in links), '']
    return lines + ['FAULT: ' + it for it in faults]


def fit(options):
    sources = sources_of(options.source)
    if os.path.isdir(options.target) and os.path.isdir(options.source) and os.path.samefile(options.source, options.target):
        raise Stop('%s: this is the folder with the files that are read' % options.target)
    wanted = [it.lower() for it in options.tables.split(',')] if options.tables else None
    taken, tables = set(), []
    for raw, source in sources.items():
        table = Table(raw, word_of(raw, taken), source)
        if wanted is None or raw.lower() in wanted or table.name in wanted:
            tables.append(table)
    if wanted is not None and len(tables) != len(wanted):
        raise Stop('--tables: not each of these is there; the tables are %s' % ', '.join(sources))
    keys = dict(it.split('.', 1) for it in options.key)
    for table in tables:
        table.read()
        table.find_key(keys.get(table.name, '').lower())
        for column in table.columns:
            column.settle(options)
    faults = find_references(tables, options)
    if len(tables) > MOST_TABLES:
        faults.append('there are %d tables, and a schema has at most %d' % (len(tables), MOST_TABLES))
    faults += ['%s has %d columns with id, and a table has at most %d' % (it.name, len(it.columns) + 1, MOST_COLUMNS) for it in tables if len(it.columns) + 1 > MOST_COLUMNS]
    for table in tables:
        if any(it.child is table for other in tables for it in other.columns):
            table.number()
    for table in tables:
        for column in table.columns:
            if column.child is not None:
                column.faults, column.notes = [], []
    check_references(tables, options)
    faults += tree_faults(tables)
    propose_hidden(tables, options)
    faults += ['%s has %d rows with the added one, and a table has at most %d' % (it.name, it.rows + 1, MOST_ROWS) for it in tables if it.added and it.rows == MOST_ROWS]
    wrong = faults or any(it.faults or any(column.faults for column in it.columns) for it in tables)
    return tables, faults, wrong


def main():
    words = argparse.ArgumentParser(description=__doc__, formatter_class=argparse.RawDescriptionHelpFormatter, usage='fit_tables.py FROM TO [options]')
    words.add_argument('source', metavar='FROM')
    words.add_argument('target', metavar='TO')
    words.add_argument('--tables')
    for option in ('refers', 'plain', 'key', 'hide', 'show'):
        words.add_argument('--' + option, action='append', default=[])
    words.add_argument('--empty', type=int)
    words.add_argument('--dates', choices=('dmy', 'mdy'))
    words.add_argument('--cut', action='store_true')
    words.add_argument('--unknown', action='store_true')
    options = words.parse_args()
    try:
        tables, faults, wrong = fit(options)
        os.makedirs(options.target, exist_ok=True)
        report = report_of(tables, faults or (['nothing but this report was written: see the lines with FAULT above'] if wrong else []))
        if not wrong:
            folder = os.path.join(options.target, 'tables')
            os.makedirs(folder, exist_ok=True)
            with open(os.path.join(options.target, 'schema.sql'), 'w', encoding='ascii') as file:
                file.write(schema_text(tables))
            for table in tables:
                size = write_table(table, folder)
                if size > MOST_BYTES:
                    wrong = True
                    report.append('FAULT: %s.csv has %d bytes, and a file has at most %d: leave columns out, or split the table' % (table.name, size, MOST_BYTES))
        with open(os.path.join(options.target, 'report.txt'), 'w', encoding='utf-8', errors='replace') as file:
            file.write('\n'.join(report) + '\n')
    except OSError as error:
        sys.exit('%s: %s' % (error.filename, error.strerror))
    except (Stop, sqlite3.Error, csv.Error) as error:
        sys.exit(str(error))
    sys.stdout.reconfigure(errors='replace')
    print('\n'.join(report))
    if not wrong:
        top = os.path.relpath(os.path.join(os.path.dirname(os.path.realpath(__file__)), '..'))
        print('next: %s load --schema %s --data %s --flash K --visible V' % (
            os.path.join(top, 'crates', 'key_program', 'out', 'key_program'), os.path.join(options.target, 'schema.sql'), os.path.join(options.target, 'tables')))
        print('then: %s K V "SELECT .."' % os.path.join(top, 'examples', 'ask'))
    sys.exit(1 if wrong else 0)


if __name__ == '__main__':
    main()
