"""The largest tables, files and texts that the rules allow, with a stack of 8 MiB.

*Twelve tables* of 24 columns, a chain by foreign keys; all other columns are CHAR(64), every other one hidden, with five rows of
full texts. 15 of the 64 texts have 4,096 bytes, all twelve tables, 32 selected columns and 16 conditions. *Two tables* of 1,000,000
rows in files of 67,108,864 bytes: one has 23 columns of CHAR(64), 12 of them hidden, the other a scattered foreign key to it.
"""
import os
import resource
import shutil

from running import Place, lines_of, rows_of, run, say, table, title

TEXT_BYTES = 4096
SCHEMA_BYTES = SCRIPT_BYTES = 65536
TABLE_BYTES = 67108864
ROWS = 1000000
STACK_BYTES = 8 << 20


def name(*words):
    """A name of 32 bytes."""
    return '_'.join(words).ljust(32, '_')


def text(select, tables, joins, conditions):
    """A text of 4,096 bytes, which ends in blanks."""
    written = 'SELECT %s FROM %s WHERE %s' % (', '.join(select), ', '.join(tables), ' AND '.join(joins + conditions))
    assert len(select) == 32 and len(conditions) == 16 and len(written) <= TEXT_BYTES
    return written.ljust(TEXT_BYTES)


def write(folder, of, content):
    with open(os.path.join(folder, of), 'w') as file:
        file.writelines(content)


def write_schema(folder, tables):
    """Tables are names with their columns, and these are names with kinds. The schema ends in blanks."""
    written = ''.join('CREATE TABLE %s (id INTEGER PRIMARY KEY, %s);\n' % (table, ', '.join('%s %s' % of for of in columns))
                      for table, columns in tables)
    write(folder, 'schema.sql', written.ljust(SCHEMA_BYTES))


def write_script(folder, texts):
    """The script ends in blanks, which are no text."""
    write(folder, 'script.sql', ''.join(one + ';' for one in texts).ljust(SCRIPT_BYTES))


def write_rows(folder, table, columns, rows):
    write(os.path.join(folder, 'tables'), table + '.csv', rows_with_header(columns, rows))


def rows_with_header(columns, rows):
    yield 'id,%s\n' % ','.join(column for column, _ in columns)
    yield from rows


def kind(place):
    return 'CHAR(64) HIDDEN' if place % 2 else 'CHAR(64)'


# Twelve tables of 24 columns.

def wide_table(table):
    return name('table', '%02d' % table)


def wide_column(table, column):
    return name('column', '%02d' % table, '%02d' % column)


def wide_value(table, column, row):
    """A text of 64 bytes; those of a column ascend with the rows."""
    return ('%d.%d.%d.' % (table, column, row)).ljust(64, 'x')


def wide_condition(number, place):
    """One that all five rows meet, or all but row 3."""
    operator, row = [('>=', 1), ('<=', 5), ('<>', 3)][place % 3]
    table, column = (5 * place + number) % 12, 2 + (place + number) % 22
    return "%s %s '%s'" % (wide_column(table, column), operator, wide_value(table, column, row))


def wide_text(number):
    select = [wide_column(place % 12, 2 + (place + number) % 22) for place in range(32)]
    joins = ['%s = %s.id' % (wide_column(table, 1), wide_table(table + 1)) for table in range(11)]
    conditions = [wide_condition(number, place) for place in range(16)]
    return text(select, [wide_table(table) for table in range(12)], joins, conditions)


def write_wide(folder):
    """A chain of twelve tables; 64 texts, 15 of them long."""
    tables = []
    for table in range(12):
        columns = [(wide_column(table, column), kind(column)) for column in range(1, 24)]
        if table < 11:
            columns[0] = wide_column(table, 1), 'INTEGER REFERENCES ' + wide_table(table + 1)
        tables.append((wide_table(table), columns))
        first = [wide_value(table, 1, row) if table == 11 else str(6 - row) for row in range(1, 6)]
        write_rows(folder, wide_table(table), columns, (
            '%d,%s,%s\n' % (row, first[row - 1], ','.join(wide_value(table, column, row) for column in range(2, 24)))
            for row in range(1, 6)))
    write_schema(folder, tables)
    write_script(folder, [wide_text(number) for number in range(15)]
                 + ['SELECT * FROM ' + wide_table(number % 12) for number in range(49)])


# Two tables of 1,000,000 rows.

TOP, LEAF = name('top'), name('leaf')
TOP_COLUMNS = [(name('top', 'leaf'), 'INTEGER REFERENCES ' + LEAF), (name('top', '02'), kind(2)), (name('top', '03'), kind(3))]
LEAF_COLUMNS = [(name('leaf', '%02d' % column), kind(column)) for column in range(1, 24)]


def top_row(row):
    return '%d,%d,%d.xxxxxxxxxxxxxxxxx,%d.' % (row, 7919 * row % ROWS + 1, row % 10, row % 7)


def leaf_row(row):
    return '%d,%s' % (row, ','.join(str(row * column % 10) for column in range(1, 24)))


def filled(columns, row_of):
    """The rows, the last text of each made longer so that the file has as many bytes as one may have."""
    spare = TABLE_BYTES - sum(map(len, rows_with_header(columns, ()))) - sum(len(row_of(row)) + 1 for row in range(1, ROWS + 1))
    for row in range(1, ROWS + 1):
        yield row_of(row) + 'x' * (spare // ROWS + (row <= spare % ROWS)) + '\n'


def long_text():
    """One that reads all of the rows that its first condition lets through, which is one in ten."""
    columns = [(LEAF, column) for column, _ in LEAF_COLUMNS] + [(TOP, column) for column, _ in TOP_COLUMNS]
    select = ['%s.%s' % of for of in columns + columns[:6]]
    conditions = ["%s = '3'" % LEAF_COLUMNS[0][0]]
    conditions += ["%s <= '%s'" % (column, '9'.ljust(64, '~')) for column, _ in LEAF_COLUMNS[1:13] + TOP_COLUMNS[1:]]
    conditions += ['%s.id <= %d' % (TOP, ROWS)]
    return text(select, [TOP, LEAF], ['%s = %s.id' % (TOP_COLUMNS[0][0], LEAF)], conditions)


def write_long(folder):
    write_rows(folder, TOP, TOP_COLUMNS, filled(TOP_COLUMNS, top_row))
    write_rows(folder, LEAF, LEAF_COLUMNS, filled(LEAF_COLUMNS, leaf_row))
    write_schema(folder, [(TOP, TOP_COLUMNS), (LEAF, LEAF_COLUMNS)])
    write_script(folder, [long_text(), 'SELECT * FROM %s' % TOP, 'SELECT * FROM %s WHERE id > %d' % (LEAF, ROWS - 10)])


def one_case(bench, what, write_case):
    """The commands over a case; each has to end with 0, `local` and `plain` have to print the same, and the journal has to be proper."""
    place = Place(bench.key, bench.host, os.path.join(bench.folder, 'largest'))
    os.makedirs(place.name('tables'), exist_ok=True)
    write_case(place.folder)
    say(what)
    load = place.load()
    sizes = [os.path.getsize(place.name(of)) for of in ('flash', 'visible')]
    os.remove(place.name('flash'))
    local = place.local('script.sql', 'out.local', '--journal', place.name('journal'))
    plain = place.plain('script.sql', 'out.plain')
    if lines_of(place.name('out.local')) != lines_of(place.name('out.plain')):
        bench.differs('`local` and `plain` printed different lines')
    run([place.key, 'audit', '--visible', place.name('visible'), '--script', place.name('script.sql'), '--journal', place.name('journal')])
    rows = rows_of(place.name('out.plain'))[0]
    shutil.rmtree(place.folder)
    return [what, rows, *(one.cpu for one in (load, local, plain)), *(one.peak / 1024 for one in (load, local, plain)),
            *(size / 2 ** 20 for size in sizes)]


def tell(bench):
    """A line for each case, of one run each."""
    _, most = resource.getrlimit(resource.RLIMIT_STACK)
    resource.setrlimit(resource.RLIMIT_STACK, (STACK_BYTES, most))
    rows = [one_case(bench, 'twelve tables of 24 columns', write_wide), one_case(bench, 'two tables of 1,000,000 rows', write_long)]
    title('The largest tables, with a stack of %d MiB' % (STACK_BYTES >> 20))
    table(['', 'rows', *('`%s`, %s' % (name, unit) for unit in ('CPU s', 'peak MiB') for name in ('load', 'local', 'plain')),
           'flash, MiB', "host's file, MiB"], rows)
