"""Calls of the flash, counted from outside: pages read and written, and blocks made blank.

A job's calls are those that read from the static files on and those that write behind the spool; reading the catalog and writing
the replies belong to the opening and to the channel.
"""
import os

from clinic import SCHEMA, text, write_clinic, write_table
from clinic_pages import Clinic
from running import BLOCK_PAGES, PAGE, Place, lines_of, rows_of, say, table, title, write

# The pages before the static files, and for how many rows more of the root there is room, as docs/FLASH.md has them.
PUBLIC_PAGES, APPENDED_ROOM = 256, 4096
PLANS = ['auto', 'scan', 'pre', 'post', 'cross-pre', 'cross-post']
BOUNDED = 'pre'
SELECTIVE = [
    "SELECT visit.id, purpose FROM visit, patient WHERE pat = patient.id AND name = 'n7' AND purpose = 'p3';",
    "SELECT visit.id, day FROM visit, patient WHERE pat = patient.id AND name = 'n7';",
    "SELECT visit.id, age FROM visit, patient WHERE pat = patient.id AND name = 'n7' AND age < 50;",
    "SELECT patient.id, age FROM patient WHERE name = 'n7';",
]
RARE = [
    "SELECT visit.id, purpose FROM visit WHERE purpose = 'rare';",
    "SELECT visit.id, name FROM visit, patient WHERE pat = patient.id AND purpose = 'rare';",
    "SELECT visit.id, age, country FROM visit, doctor, patient WHERE doc = doctor.id AND pat = patient.id AND purpose = 'rare';",
]


def spool_end(rows):
    """The first page behind the spool of a clinic with so many rows: behind the static files, as docs/FLASH.md has them."""
    sized = lambda count, width: -(-(-(-count // (PAGE // width))) // BLOCK_PAGES) * BLOCK_PAGES
    pages = lambda count, width: -(-count // (PAGE // width)) if count else 0
    static = PUBLIC_PAGES
    for name, hidden, above, below in (('doctor', [2], ['visit'], 0), ('patient', [8], ['visit'], 0), ('visit', [8, 8, 8], [], 2)):
        count = rows[name]
        static += sum(pages(count, width) for width in hidden)
        static += pages(count, 4 * below) if below else 0
        for width in hidden:
            static += 1 + pages(count, width + 8 * (1 + len(above))) + sum(pages(rows[it], 4) for it in [name, *above])
        static += pages(count, 8) + pages(rows['visit'], 4) if above else 0
    static = -(-static // BLOCK_PAGES) * BLOCK_PAGES
    return static + 2 * sum(sized(count + (APPENDED_ROOM if name == 'visit' else 0), 12) for name, count in rows.items())


def job_calls(place, one, plan, spool):
    """How often the job of a text called the flash."""
    write(place.folder, 'one.sql', one + '\n')
    return sum(page >= PUBLIC_PAGES if kind == 'pread64' else page >= spool for kind, _, page in place.calls('one.sql', plan))


def by_plans(bench, place, one, spool):
    """The calls of a text's job by each plan; all have to print the same."""
    say('calls of', one)
    made = [job_calls(place, one, plan, spool) for plan in PLANS]
    if len({lines_of(place.name('out.' + plan)) for plan in PLANS}) > 1:
        bench.differs('The plans printed different lines for %s' % one)
    return made


def tell_plans(bench):
    """The calls of texts by each plan, beside the bound of *pre* and the least that is possible."""
    visits = bench.visits // 10
    place, clinic = bench.clinic(visits), Clinic(visits)
    spool = spool_end(clinic.rows)
    texts = [text(number) for form in range(4) for number in (form + 1, form + 37)] + SELECTIVE
    rows = []
    for one in texts:
        read = clinic.read(one)
        answer = clinic.answer(read)
        bound, fewest = clinic.bound(read, answer), clinic.least(read, answer)
        made = by_plans(bench, place, one, spool)
        of = made[PLANS.index(BOUNDED)]
        if of > bound:
            bench.differs('More calls than the bound')
        rows.append(['`%s`' % one, len(answer), *made, bound, fewest, of / max(fewest, 1)])
    title('Calls of the flash by plan, over %s visits' % format(visits, ','))
    table(['text', 'rows', *PLANS, 'bound of *pre*', 'least', '*pre* beside it'], rows)
    print('\nCalls of the text\'s job with 32 page buffers. The bound is the work of the query (docs/SESSION.md); the least is one read '
          'for each page that holds a value, a list or an identifier that satisfies, a replied row, the record of a row of the answer, '
          'or a selected hidden value.')


def tell_buffers(bench):
    """The pages of the forty texts with 8, 32 and 64 page buffers."""
    visits = bench.visits // 10
    place = bench.clinic(visits)
    rows = []
    for plan in PLANS[:4]:
        for buffers in (8, 32, 64):
            say('calls of the forty texts by %s with %d buffers' % (plan, buffers))
            read = written = blank = 0
            for kind, size, _ in place.calls('script.sql', plan, buffers):
                read += kind == 'pread64'
                written += kind == 'pwrite64' and size == PAGE
                blank += kind == 'pwrite64' and size == BLOCK_PAGES * PAGE
            rows.append([plan, buffers, read, written, blank])
    title('Page buffers: the forty texts over %s visits' % format(visits, ','))
    table(['plan', 'page buffers', 'pages read', 'pages written', 'blocks made blank'], rows)
    print('\nAll calls of the key in a session, the catalog\'s pages and the spool included.')


def write_rare(folder, visits):
    """A clinic whose doctors and patients stay as they are while the visits grow. Forty visits, pages apart, have the purpose rare."""
    os.makedirs(os.path.join(folder, 'tables'), exist_ok=True)
    write(folder, 'schema.sql', SCHEMA)
    step = visits // 40
    rare = lambda number: number % step == step // 2 and number // step < 40
    write_table(folder, 'doctor', 'specialty,country', 100, lambda number: 's%d,c%d' % (number % 5, number % 3))
    write_table(folder, 'patient', 'age,name', 200, lambda number: '%d,n%d' % (number % 100, number % 50))
    write_table(folder, 'visit', 'day,purpose,doc,pat', visits,
                lambda number: '%d,%s,%d,%d' % (number % 365, 'rare' if rare(number) else 'p%d' % (number % 8), number % 100 + 1, number % 200 + 1))


def tell_growth(bench, sizes):
    """The calls of texts whose answer stays the same."""
    rows = []
    for visits in sizes:
        place = Place(bench.key, bench.host, os.path.join(bench.folder, 'rare'))
        write_rare(place.folder, visits)
        place.load()
        spool = spool_end({'doctor': 100, 'patient': 200, 'visit': visits})
        rows += [[visits, '`%s`' % one, *by_plans(bench, place, one, spool)] for one in RARE]
    table(['visits', 'text', *PLANS], rows)


# Two tables of as many rows, `top` with a hidden foreign key to `leaf`. A text looks up a row of a reply for each row of `top`.
LOOKUP_SCHEMA = """\
CREATE TABLE leaf (id INTEGER PRIMARY KEY, half INTEGER, clump INTEGER);
CREATE TABLE top (id INTEGER PRIMARY KEY, num INTEGER, near INTEGER REFERENCES leaf(id) HIDDEN);
"""
REPLIES = [('all rows', ''), ('every other row', ' AND half = 0'), ('rows in clumps', ' AND clump = 0')]
ORDERS = [('scattered', 7919), ('ascending', 1)]


def write_lookups(folder, rows, step):
    """Row i of top refers to the row of leaf that is `step` times as far, round and round."""
    os.makedirs(os.path.join(folder, 'tables'), exist_ok=True)
    write(folder, 'schema.sql', LOOKUP_SCHEMA)
    write_table(folder, 'leaf', 'half,clump', rows, lambda number: '%d,%d' % (number % 2, int(number ** 0.5) % 2))
    write_table(folder, 'top', 'num,near', rows, lambda number: '%d,%d' % (number, number * step % rows + 1))


def tell_lookups(bench, count):
    """Reads of a reply by the scan, which writes no page but those of replies."""
    rows = []
    for order, step in ORDERS:
        place = Place(bench.key, bench.host, os.path.join(bench.folder, 'lookups'))
        write_lookups(place.folder, count, step)
        place.load()
        for reply, condition in REPLIES:
            say('look-ups, %s, %s' % (reply, order))
            column = 'clump' if 'clump' in condition else 'half'
            write(place.folder, 'one.sql', 'SELECT top.id, %s FROM top, leaf WHERE near = leaf.id%s;\n' % (column, condition))
            written, reads = set(), 0
            for kind, size, page in place.calls('one.sql', 'scan'):
                if kind == 'pread64':
                    reads += page in written
                elif size == PAGE:
                    written.add(page)
            rows.append([reply, order, rows_of(place.name('out.scan'))[0], len(written), reads, reads / count, reads / max(len(written), 1)])
    title('Look-ups in a reply, %s of them' % format(count, ','))
    table(['reply', 'look-ups', 'rows found', 'pages of the reply', 'reads', 'reads a look-up', 'reads a page'], rows)
