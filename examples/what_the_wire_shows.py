#!/usr/bin/env python3
"""Tells in words, and as a picture, what was on the wire by a journal of `local`.

    what_the_wire_shows.py JOURNAL [--lines FILE [--script FILE]] [--beside JOURNAL2] [--svg FILE]

JOURNAL is the file that `local --journal` wrote (docs/CHANNEL.md). Printed are the catalog that both sides know; each
ask in words, with the rows, the count or the code that came back; all moves in their order; and what is nowhere in it.

    --lines FILE       the lines that `local` printed: how many rows came, and how many were printed
    --script FILE      the script besides: the same for each text, and which rows the key kept where their id is selected
    --beside JOURNAL2  where the two journals differ, or that they do not
    --svg FILE         writes all this as a picture: the moves from top to bottom, and beside them what is nowhere on the
                       wire, what the key kept and whether the two journals differ

Status 0; 1 where the two journals differ; 2 where a file is refused, with one line on standard error that says where
and why.
"""
import argparse
import html
import re
import sys
import textwrap

sys.dont_write_bytecode = True
from journal import Refused, amount, plain, read_journal, row_words, shown

BROKEN = ('link', 'protocol', 'host', 'flash', 'damaged')
MOST_DRAWN = 1000
ROW, TOP, KEY, HOST, BESIDE = 26, 96, 70, 730, 780
BLUE, BROWN, RED = '#1c4f9c', '#8a4b08', '#c00000'


def size_of(wire, sender):
    return sum(move.size for move in wire.moves if move.sender == sender)


def secret(column):
    return 'hidden, a foreign key to %s' % column.child if column.child else 'hidden'


def hidden_columns(wire):
    """The hidden columns, each by its table's name, its own and what it is."""
    tables = wire.catalog[1] if wire.catalog else []
    columns = [(table.name, it) for table in tables for it in table.columns[1:] if not it.visible]
    return ['%s.%s (%s)' % (table, it.name, secret(it)) for table, it in columns]


def tell_sums(wire):
    there, back = [amount(size_of(wire, sender), 'byte') for sender in ('key', 'host')]
    print('%s on the channel: %s from the key to the host, %s from the host to the key; %s.' % (
        amount(len(wire.moves), 'move'), there, back, amount(len(wire.asks), 'ask')))
    if wire.awaits != 'nothing':
        print('The journal ends before the channel was closed.')


def tell_catalog(wire):
    print('\nWhat both sides know: the catalog')
    if not wire.catalog:
        print('  It did not come whole, or it was not the one that the key has: no ask was sent.')
        return
    print('  Names, kinds and numbers of rows; generation %d.' % wire.catalog[0])
    for table in wire.catalog[1]:
        kinds = [(it, 'CHAR(%d)' % it.size if it.size else 'INTEGER', ' NULL' if it.nullable else '') for it in table.columns[1:]]
        columns = ['%s %s%s%s' % (it.name, kind, null, '' if it.visible else ' (%s)' % secret(it)) for it, kind, null in kinds]
        line = '%s, %s: %s' % (table.name, amount(table.rows, 'row'), ', '.join(columns) or 'the identifier alone')
        print(textwrap.fill(line, 110, initial_indent='  ', subsequent_indent='    '))


def tell_asks(wire):
    print('\nWhat the key asked, and what came back')
    if not wire.asks:
        print('  Nothing was asked.')
    for number, ask in enumerate(wire.asks, 1):
        print('  Ask %d: %s' % (number, ask.words()))
        rows = [row_words(row) for row in ask.rows]
        came = ': %s %s' % (ask.table.name, shown(rows, 12)) if rows else ''
        print('    %s in %s, %s in all%s' % (
            amount(len(rows), 'row'), amount(ask.frames, 'frame'), amount(ask.size, 'byte'), came))
        print('    %s.' % ask.end)
    if len(wire.asks) > 1:
        print('  The wire does not say where one text ends and the next begins.')


def tell_moves(wire):
    print('\nAll moves in their order')
    for number, move in enumerate(wire.moves, 1):
        arrow = 'key -> host' if move.sender == 'key' else 'key <- host'
        print('%5d  %s  %11s  %s' % (number, arrow, amount(move.size, 'byte') if move.size else '', move.words))


def tell_nowhere(wire):
    print('\nNowhere on the wire')
    names = hidden_columns(wire)
    if not wire.catalog:
        print('  What is hidden cannot be told, since no catalog came.')
    elif not names:
        print('  This schema has no hidden column.')
    for name in names:
        print('  the values of %s' % name)
    if names:
        print('  nor a condition on one of these, nor which of the rows that came were of use')
        print('  Their names are on it: they stand in the catalog. Each byte of the journal was read, and belongs to')
        print('  what is told above: no ask names one of these columns, and no row that came has room for one.')


def read_lines(name):
    """Of each text its rows, as lists of fields, and, where it was not answered in full, the word."""
    texts, rows = [], []
    with open(name, encoding='latin-1', newline='\n') as file:
        for number, line in enumerate(file, 1):
            found = re.fullmatch(r'= (\d+) (\d+)\n|! (\d+) ([a-z]+(?: \d+)?)\n', line)
            if line.startswith('> '):
                rows.append(line[2:-1].split('\t'))
            elif not found or int(found[1] or found[3]) != len(texts) + 1 or found[1] and int(found[2]) != len(rows):
                raise Refused('%s, line %d: this is not the line that `local` prints here' % (name, number))
            else:
                texts.append((rows, found[4]))
                rows = []
    return texts


def read_script(name):
    """The texts of a script: it is cut at each ; before which an even number of ' stands."""
    with open(name, encoding='latin-1', newline='') as file:
        parts = re.findall(r"(?:[^;']|'[^']*(?:'|\Z))+", file.read())
    return [part for part in parts if part.strip(' \t\n\r')]


def named(words, tables):
    """The columns that these words of an accepted text name, in their order, each with its table."""
    found = []
    for place, word in enumerate(words):
        owner = words[place - 2] if place > 1 and words[place - 1] == '.' else None
        if words[place + 1:place + 2] != ['.']:
            found += [(table, it) for table in tables for it in table.columns
                      if owner in (None, table.name) and word in (it.name, '*')]
    return found


def columns_of(text, tables):
    """The selected columns of an accepted text, and the names of the tables that it asks, in the schema's order."""
    words = re.findall(r"'[^']*'|\w+|\S", text.lower())
    start, end = words.index('from'), words.index('where') if 'where' in words else len(words)
    chosen = [table for word in words[start + 1:end] for table in tables if table.name == word]
    selected = named(words[1:start], chosen)
    asked = {table.name for table, column in selected + named(words[end + 1:], chosen) if column.visible}
    return selected, [table.name for table in tables if table.name in asked]


def asks_of_texts(wire, texts, name):
    """Of each text its selected columns and its asks, by the script of that name."""
    parts, left, found = read_script(name), list(wire.asks), []
    if len(parts) != len(texts):
        raise Refused('%s: it has %s, and the lines tell of %d' % (name, amount(len(parts), 'text'), len(texts)))
    for part, (_, word) in zip(parts, texts):
        is_query = wire.catalog and (word is None or word in BROKEN)
        (selected, wanted), own = columns_of(part, wire.catalog[1]) if is_query else ([], []), []
        while left and len(own) < len(wanted) and not (own and own[-1].end.startswith('SORRY')):
            if left[0].table.name != wanted[len(own)]:
                what = 'text %d asks %s, and the journal does not' % (len(found) + 1, wanted[len(own)])
                raise Refused('%s: %s' % (name, what))
            own.append(left.pop(0))
        found.append((selected, own))
    if left:
        raise Refused('%s: the journal has more asks than this script' % name)
    return found


def kept_of(rows, selected, asks):
    """Of each table whose identifier is selected: which rows stand behind a printed one, and which of those that came do
    not."""
    came = {ask.table.name: [str(row) for row, _ in ask.rows] for ask in asks}
    for place, (table, column) in enumerate(selected):
        if column.name == 'id' and all(len(row) == len(selected) for row in rows):
            kept = dict.fromkeys(row[place] for row in rows)
            rest = [row for row in came.get(table.name, []) if row not in kept]
            some = shown(list(kept), 12) or 'none'
            if table.name in came:
                yield '    of %s it kept %s; of no use were %s' % (table.name, some, shown(rest, 12) or 'none')
            else:
                yield '    of %s, of which it asked nothing, it found %s among %s' % (
                    table.name, some, amount(table.rows, 'row'))


def kept_words(wire, lines, script):
    """What came and what was printed, in all and text by text, in lines."""
    texts = read_lines(lines)
    came, printed = sum(len(ask.rows) for ask in wire.asks), sum(len(rows) for rows, _ in texts)
    words = ['  %s came over the wire, %s printed.' % (amount(came, 'row'), amount(printed, 'row'))]
    found = asks_of_texts(wire, texts, script) if script else [([], []) for _ in texts]
    for number, ((rows, word), (selected, asks)) in enumerate(zip(texts, found), 1):
        parts = ['%s of %s' % (amount(len(ask.rows), 'row'), ask.table.name) for ask in asks]
        told = '%s came, ' % ' and '.join(parts) if parts else 'nothing was asked, ' if script and not word else ''
        told += '%s printed' % amount(len(rows), 'row') if word is None or word in BROKEN else 'refused: %s' % word
        words.append('  text %d: %s%s' % (number, told, ', then it broke off: %s' % word if word in BROKEN else ''))
        words += kept_of(rows, selected, asks) if word is None else []
    return words + ['  Which of the rows that came stand behind the printed ones was decided in the key, after they',
                    '  had come.']


def unlike_moves(wire, other):
    """The places of the moves of the first journal that the second one has not."""
    return [place for place, line in enumerate(wire.lines) if [line] != other.lines[place:place + 1]]


def beside_words(wire, other, name, name2):
    """Where two journals differ, or that they do not, in lines."""
    if wire.lines == other.lines:
        return ['  The two journals are the same, byte for byte: %s.' % amount(len(wire.lines), 'move')]
    both = min(len(wire.lines), len(other.lines))
    unlike = [place for place in unlike_moves(wire, other) if place < both]
    first = unlike[0] if unlike else both
    words = ['  They differ: %s and %s; of the first %d, %d differ.' % (
        amount(len(wire.lines), 'move'), amount(len(other.lines), 'move'), both, len(unlike))]
    for file, journal in ((name, wire), (name2, other)):
        move = journal.moves[first].words if first < len(journal.moves) else 'none'
        words.append('  Move %d of %s: %s' % (first + 1, file, move))
    return words


def put_text(x, y, words, more=''):
    return '<text x="%d" y="%d"%s xml:space="preserve">%s</text>' % (x, y, more, html.escape(words))


def put_move(place, move, is_unlike):
    """The picture of a move: an arrow, and above it what it says."""
    y, words = TOP + ROW * place, move.words if len(move.words) < 98 else move.words[:96] + '..'
    start, end = (KEY, HOST) if move.sender == 'key' else (HOST, KEY)
    size = ' (%s)' % amount(move.size, 'byte') if move.size else ''
    tip = end - 8 if end > start else end + 8
    color = RED if is_unlike else BLUE if move.sender == 'key' else BROWN
    return [put_text(400, y - 5, words + size, ' text-anchor="middle"' + (' fill="%s"' % RED if is_unlike else '')),
            '<path d="M%d %dH%dM%d %dL%d %dL%d %d" stroke="%s" fill="none"/>' % (
                start, y, end, tip, y - 4, end, y, tip, y + 4, color)]


def put_moves(wire, unlike):
    """The picture of the moves, and the height to which it comes."""
    drawn = wire.moves[:MOST_DRAWN]
    rest = len(wire.moves) - len(drawn)
    low = TOP + ROW * (len(drawn) + (rest > 0))
    parts = [put_text(400, 24, 'On the wire, in time from top to bottom', ' text-anchor="middle" font-size="15"'),
             put_text(KEY, 50, 'key', ' text-anchor="middle" font-weight="bold"'),
             put_text(HOST, 50, 'host', ' text-anchor="middle" font-weight="bold"'),
             '<path d="M%d 58V%dM%d 58V%d" stroke="gray"/>' % (KEY, low, HOST, low)]
    for place, move in enumerate(drawn):
        parts += put_move(place, move, place in unlike)
    if rest:
        parts.append(put_text(400, low - 5, 'and %s, which are not drawn' % amount(rest, 'more move'),
                              ' text-anchor="middle"'))
    return parts, low


def put_boxes(boxes):
    """The picture of what stands beside the moves, each box a headline and its lines; and how wide and high it is."""
    wide = max(300, 30 + max(7 * len(line) for _, lines in boxes for line in lines))
    parts, y = [], 58
    for headline, lines in boxes:
        parts += ['<rect x="%d" y="%d" width="%d" height="%d" fill="#f4f4f4" stroke="black"/>' % (
            BESIDE, y, wide, 40 + 20 * len(lines)), put_text(BESIDE + 15, y + 22, headline, ' font-weight="bold"')]
        parts += [put_text(BESIDE + 15, y + 42 + 20 * place, line) for place, line in enumerate(lines)]
        y += 60 + 20 * len(lines)
    return parts, wide, y


def picture(wire, boxes, unlike):
    moves, low = put_moves(wire, unlike)
    hidden = ['the values of', *('  ' + name for name in hidden_columns(wire)),
              'nor which of the rows that came were of use']
    nowhere = hidden if len(hidden) > 2 else ['(no column is hidden)' if wire.catalog else '(no catalog came)']
    told = [(headline, [line[2:] for line in lines]) for headline, lines in boxes]
    if unlike:
        told[-1][1].append('Red: the moves that the other journal has not.')
    beside, wide, end = put_boxes([('Nowhere on the wire', nowhere), *told])
    size = 'width="%d" height="%d"' % (BESIDE + wide + 20, max(low + 20, end))
    return '\n'.join(['<svg xmlns="http://www.w3.org/2000/svg" %s font-family="sans-serif" font-size="12">' % size,
                      '<rect %s fill="white"/>' % size, *moves, *beside, '</svg>', ''])


def tell(words):
    wire = read_journal(words.journal)
    other = read_journal(words.beside) if words.beside else None
    boxes = []
    for part in (tell_sums, tell_catalog, tell_asks, tell_moves, tell_nowhere):
        part(wire)
    if words.lines:
        boxes.append(('What the key kept', kept_words(wire, words.lines, words.script)))
    if other:
        name, name2 = plain(words.journal), plain(words.beside)
        boxes.append(('Beside %s' % name2, beside_words(wire, other, name, name2)))
    for headline, lines in boxes:
        print('\n%s' % headline, *lines, sep='\n')
    unlike = set(unlike_moves(wire, other)) if other else set()
    if words.svg:
        with open(words.svg, 'w') as file:
            file.write(picture(wire, boxes, unlike))
    return 1 if other and wire.lines != other.lines else 0


def main():
    words = argparse.ArgumentParser(description=__doc__, formatter_class=argparse.RawDescriptionHelpFormatter)
    words.add_argument('journal')
    for option in ('lines', 'script', 'beside', 'svg'):
        words.add_argument('--' + option, metavar='FILE')
    given = words.parse_args()
    if given.script and not given.lines:
        words.error('--script goes with --lines')
    try:
        return tell(given)
    except OSError as fault:
        print(plain('%s: %s' % (fault.filename, fault.strerror)), file=sys.stderr)
    except Refused as fault:
        print(plain(str(fault)), file=sys.stderr)
    return 2


if __name__ == '__main__':
    sys.exit(main())
