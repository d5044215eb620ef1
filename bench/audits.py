"""Audits of recorded channels beside the sessions that left them, and `gen`: seconds, bytes of journal a second, peak memory.

A journal is one that `local` writes over the generated clinic, of texts that select the days of all visits. So nearly all of it is
frames of 2,040 bytes with 170 rows each, in lines of some 4,090 bytes.
"""
import os

from running import run, say, table, title, write

ALL_DAYS = 'SELECT visit.id, day FROM visit WHERE day >= 0;\n'
# Texts over a tenth of the visits and over all of them: journals of some 10 MB and 1 GB where these are 1,000,000.
SIZES = [(10, 4), (1, 41)]
MIB = 1024


def audit(place):
    return run([place.key, 'audit', '--visible', place.name('visible'), '--script', place.name('days.sql'),
                '--journal', place.name('journal')])


def one_size(bench, visits, texts):
    """What `local` takes with a journal and without one, and what the audit of the journal takes."""
    place = bench.clinic(visits)
    write(place.folder, 'days.sql', ALL_DAYS * texts)
    say('a journal of %d texts over %d visits' % (texts, visits))
    words = ['--journal', place.name('journal')]
    spent = bench.in_turns({
        'without': lambda: place.local('days.sql', 'days.out'),
        'local': lambda: place.local('days.sql', 'days.out', *words),
    })
    size = os.path.getsize(place.name('journal'))
    spent.update(bench.in_turns({'audit': lambda: audit(place)}))
    os.remove(place.name('journal'))
    speed = size / spent['audit'].cpu / 1e6
    return [size, spent['without'].cpu, spent['local'].cpu, spent['audit'].cpu, spent['audit'].seconds, speed, spent['audit'].peak / MIB]


def tell(bench):
    """A line for each size."""
    rows = [one_size(bench, bench.visits // part, texts) for part, texts in SIZES]
    title('Audits')
    table(['journal, bytes', '`local` without it, CPU s', '`local`, CPU s', '`audit`, CPU s', '`audit`, seconds', 'MB of journal a CPU second',
           '`audit`, peak MiB'], rows)


def tell_gen(bench):
    """One run of `gen` for each size."""
    rows = []
    os.makedirs(bench.folder, exist_ok=True)
    for visits in (bench.visits // 100, bench.visits // 10, bench.visits):
        say('gen with %d rows' % visits)
        spent = run([bench.key, 'gen', '--seed', '1', '--rows', str(visits), '--flash', os.path.join(bench.folder, 'gen.flash')])
        rows.append([visits, spent.cpu, spent.seconds, spent.peak / MIB])
    title('`gen`, forty texts')
    table(['visits', 'CPU seconds', 'seconds', 'peak MiB'], rows)
