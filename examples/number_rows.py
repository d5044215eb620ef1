#!/usr/bin/env python3
"""Writes CSV files with the identifiers 1, 2, 3 and so on, as `load` wants them, from CSV files with any unique keys.

    number_rows.py --schema FILE --from FOLDER --to FOLDER

Each table t of the schema is read from t.csv of the first folder and written to t.csv of the second one, which may not
be the same. The first record names the columns, in any order; the others are rows. The column id holds a key: any text
that no other row of this table has. A foreign key holds the key of a row of the table to which it refers. Keys are
compared as texts, so 7 and 07 are two keys.

The k-th row of a file gets the identifier k, and each foreign key the number that its row got. The other fields stay
as they are. The old keys are in no table any more: they are kept, with the identifiers that they got, in
old_keys/t.csv of the second folder. Printed is how many rows each table has. Nothing is written where something is refused: a key that stands
twice, a reference to a key that no row has, a field that is no value of its column (docs/DATA.md). Then one line on
standard error names the file, the line and the column, and the status is 1. The whole of the schema's rules is judged by
`load`, as is the size of the files.
"""
import argparse
import collections
import csv
import os
import re
import sys

sys.dont_write_bytecode = True
from journal import plain

TOKEN = re.compile(r'[ \t\n\r]*([A-Za-z_][A-Za-z0-9_]*|[0-9]+|[(),;]|\Z)')
SPACE = re.compile(r'[ \t\n\r]*')
INTEGER = re.compile(r'[+-]?[0-9]+')
MOST_ROWS = 1000000
Column = collections.namedtuple('Column', 'name size child')


class Refused(Exception):
    pass


class Schema:
    """Reads a schema's text, token by token: `tables` has the columns of each table by its name."""

    def __init__(self, name):
        with open(name, encoding='latin-1', newline='') as file:
            self.name, self.text, self.at, self.tables = name, file.read(), 0, {}
        self.table()
        while self.token() != '':
            self.table()
        for table, columns in self.tables.items():
            for column in columns:
                if column.child and column.child not in self.tables:
                    raise Refused('%s: %s of %s refers to %s, and there is no such table' % (
                        name, column.name, table, column.child))

    def token(self):
        """The token that comes next, in lower case."""
        found = TOKEN.match(self.text, self.at)
        if not found:
            raise self.refused(self.at + len(SPACE.match(self.text, self.at)[0]), 'this is no part of a schema')
        self.end = found.end()
        return found[1].lower()

    def refused(self, at, what):
        lines = self.text[:at].split('\n')
        return Refused('%s, line %d, column %d: %s' % (self.name, len(lines), len(lines[-1]) + 1, what))

    def skip(self, *words):
        """Goes past these tokens, which have to come next."""
        for word in words:
            if self.token() != word:
                raise self.refused(self.end - len(self.token()), "'%s' should stand here" % word)
            self.at = self.end

    def has(self, *words):
        is_there = self.token() == words[0]
        if is_there:
            self.skip(*words)
        return is_there

    def take(self, pattern, what):
        word = self.token()
        if not re.fullmatch(pattern, word):
            raise self.refused(self.end - len(word), '%s should stand here' % what)
        self.at = self.end
        return word

    def table(self):
        self.skip('create', 'table')
        name = self.take('[a-z_].*', 'the name of a table')
        self.skip('(')
        columns = [self.column()]
        while self.has(','):
            columns.append(self.column())
        self.skip(')', ';')
        names = [column.name for column in columns]
        if name in self.tables or len(set(names)) < len(names) or names[0] != 'id':
            raise Refused('%s: %s stands twice, has a column twice, or does not begin with id' % (self.name, name))
        self.tables[name] = columns

    def column(self):
        name, size, child = self.take('[a-z_].*', 'the name of a column'), 0, None
        if self.has('char', '('):
            size = int(self.take('0*([1-9]|[1-5][0-9]|6[0-4])', 'a number from 1 to 64'))
            self.skip(')')
        else:
            self.take('integer|int', 'INTEGER or CHAR')
            self.has('primary', 'key')
            if self.has('references'):
                child = self.take('[a-z_].*', 'the name of a table')
                self.has('(', 'id', ')')
        self.has('hidden')
        return Column(name, size, child)


def fault(file, line, column, what):
    where = ', column %s' % column if column else ''
    return Refused('%s, line %d%s: %s' % (file, line, where, what))


def shown(field):
    """A field as a message shows it: at most 40 characters, none of them a control character."""
    text = ''.join(it if 0x20 <= ord(it) <= 0x7E else '\\x%02X' % ord(it) for it in field[:40])
    return "'%s'%s" % (text, '..' if len(field) > 40 else '')


def records(name):
    """The records of a file, each with the line on which it begins, from 1; an empty line is none."""
    csv.field_size_limit(sys.maxsize)
    with open(name, encoding='latin-1', newline='') as file:
        if file.read(3) != '\xef\xbb\xbf':
            file.seek(0)
        line, reader = 1, csv.reader(file)
        try:
            for record in reader:
                if record:
                    yield line, record
                line = reader.line_num + 1
        except csv.Error as error:
            raise fault(name, line, None, str(error))


def rows(name, columns):
    """The rows of a file, each with its record's line, its fields in the order of the schema."""
    found = records(name)
    line, header = next(found, (1, []))
    header = [field.lower() for field in header]
    names = [column.name for column in columns]
    if sorted(header) != sorted(names):
        raise fault(name, line, None, 'the header should have these names: %s' % ','.join(names))
    places = [header.index(it) for it in names]
    for number, (line, record) in enumerate(found, 1):
        if len(record) != len(names):
            raise fault(name, line, None, 'it has %d fields, and the table %d columns' % (len(record), len(names)))
        if number > MOST_ROWS:
            raise fault(name, line, None, 'a table has at most %d rows' % MOST_ROWS)
        yield line, [record[place] for place in places]


def read_keys(name, columns):
    """The number of each key of a file."""
    keys, lines = {}, {}
    for line, (key, *_) in rows(name, columns):
        if key == '':
            raise fault(name, line, 'id', 'the key is empty')
        if key in keys:
            raise fault(name, line, 'id', 'the key %s stands in line %d already' % (shown(key), lines[key]))
        keys[key], lines[key] = len(keys) + 1, line
    return keys


def wrong(column, field):
    """Why a field is no value of its column; nothing where it is one."""
    if column.size:
        if len(field) > column.size:
            return '%s has more than %d bytes' % (shown(field), column.size)
        is_good = all(0x20 <= ord(it) <= 0x7E for it in field)
        return None if is_good else '%s has a byte that is not from 0x20 to 0x7E' % shown(field)
    if not INTEGER.fullmatch(field):
        return '%s is no integer%s' % (shown(field), '' if field else ', and a number may not be left out')
    digits = field.lstrip('+-').lstrip('0')
    is_good = len(digits) < 20 and -2 ** 63 <= int(field[0].strip('+0123456789') + (digits or '0')) < 2 ** 63
    return None if is_good else '%s is outside 64 bits' % shown(field)


def numbered(name, columns, keys):
    """The rows of a file with their new identifiers and foreign keys."""
    for number, (line, row) in enumerate(rows(name, columns), 1):
        row[0] = str(number)
        for place, column in enumerate(columns[1:], 1):
            if column.child:
                if row[place] not in keys[column.child]:
                    key = 'key %s' % shown(row[place]) if row[place] else 'empty key'
                    raise fault(name, line, column.name, 'there is no %s with the %s' % (column.child, key))
                row[place] = str(keys[column.child][row[place]])
            elif wrong(column, row[place]):
                raise fault(name, line, column.name, wrong(column, row[place]))
        yield row


def number_rows(schema, source, target):
    tables = Schema(schema).tables
    if os.path.isdir(target) and os.path.samefile(source, target):
        raise Refused('%s: this is the folder with the files that are read' % target)
    names = {table: os.path.join(source, table + '.csv') for table in tables}
    keys = {table: read_keys(names[table], columns) for table, columns in tables.items()}
    for table, columns in tables.items():
        for _ in numbered(names[table], columns, keys):
            pass
    os.makedirs(os.path.join(target, 'old_keys'), exist_ok=True)
    for table, columns in tables.items():
        with open(os.path.join(target, table + '.csv'), 'w', encoding='latin-1', newline='') as file:
            lines = csv.writer(file, lineterminator='\n')
            lines.writerow([column.name for column in columns])
            lines.writerows(numbered(names[table], columns, keys))
        with open(os.path.join(target, 'old_keys', table + '.csv'), 'w', encoding='latin-1', newline='') as file:
            lines = csv.writer(file, lineterminator='\n')
            lines.writerow(['id', 'old_key'])
            lines.writerows((number, key) for key, number in keys[table].items())
        print('%s: rows 1 to %d' % (table, len(keys[table])) if keys[table] else '%s: no row' % table)
    print('the old keys: %s' % os.path.join(target, 'old_keys'))


def main():
    words = argparse.ArgumentParser(description=__doc__, formatter_class=argparse.RawDescriptionHelpFormatter)
    for option, where in (('schema', 'schema'), ('from', 'source'), ('to', 'target')):
        words.add_argument('--' + option, dest=where, metavar='FILE' if where == 'schema' else 'FOLDER', required=True)
    try:
        number_rows(**vars(words.parse_args()))
    except OSError as error:
        sys.exit(plain('%s: %s' % (error.filename, error.strerror)))
    except Refused as error:
        sys.exit(plain(str(error)))


if __name__ == '__main__':
    main()
