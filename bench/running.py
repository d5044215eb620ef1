"""What the benchmark runs: the programs, sessions of the two, and sqlite3 over the same clinic; and tables of what they took.

What is started by another program begins with that one's peak memory. So where GNU time is there runs are started by it, which is
small, and no file is read whole here.
"""
import hashlib
import os
import re
import shutil
import subprocess
import sys
import tempfile
import time
from collections import namedtuple

SQLITE = shutil.which('sqlite3')
STRACE = shutil.which('strace')
TIME = shutil.which('time')
TABLES = ['doctor', 'patient', 'visit']
CREATE = """\
CREATE TABLE doctor (id INTEGER PRIMARY KEY, specialty CHAR(8), country CHAR(2));
CREATE TABLE patient (id INTEGER PRIMARY KEY, age INTEGER, name CHAR(8));
CREATE TABLE visit (id INTEGER PRIMARY KEY, day INTEGER, purpose CHAR(8), doc INTEGER, pat INTEGER);
"""
HIDDEN = ['doctor(country)', 'patient(name)', 'visit(purpose)', 'visit(doc)', 'visit(pat)']
INDEXES = HIDDEN + ['doctor(specialty)', 'patient(age)', 'visit(day)']
CALL = re.compile(r'(?:\d+ +)?(pread64|pwrite64)\((\d+), .*, (\d+), (\d+)\) += \d+$')
PAGE, BLOCK_PAGES = 2048, 64

# What a run took: seconds, seconds on a processor (of the user and the system), and peak memory in KiB.
Spent = namedtuple('Spent', 'seconds cpu peak')


def say(*words):
    """A word of progress, on standard error."""
    print(time.strftime('%H:%M:%S'), *words, file=sys.stderr, flush=True)


def end(process, name, status=0):
    """Waits for a process, which has to end with this status: its seconds on a processor and its peak memory."""
    _, ended, usage = os.wait4(process.pid, 0)
    process.returncode = os.waitstatus_to_exitcode(ended)
    if process.returncode != status:
        sys.exit('%s ended with %d' % (name, process.returncode))
    return usage.ru_utime + usage.ru_stime, usage.ru_maxrss


def run(words, out=subprocess.DEVNULL, given='', status=0):
    """Runs a command with this standard input, and answers what it took."""
    with tempfile.NamedTemporaryFile('r') as told:
        begun = time.monotonic()
        process = subprocess.Popen([TIME, '-q', '-f', '%M', '-o', told.name] + words if TIME else words, stdin=subprocess.PIPE,
                                   stdout=out, stderr=None if status == 0 else subprocess.DEVNULL, text=True)
        process.stdin.write(given)
        process.stdin.close()
        cpu, peak = end(process, words[0], status)
        return Spent(time.monotonic() - begun, cpu, int(told.read().split()[-1]) if TIME else peak)


def into_file(words, name, given=''):
    with open(name, 'w') as out:
        return run(words, out, given)


def joined(*parts):
    """One run after another: their seconds together, and the largest peak."""
    return Spent(sum(part.seconds for part in parts), sum(part.cpu for part in parts), max(part.peak for part in parts))


def least(measured):
    """The least seconds of some runs, and their largest peak."""
    return Spent(min(one.seconds for one in measured), min(one.cpu for one in measured), max(one.peak for one in measured))


def write(folder, name, content):
    with open(os.path.join(folder, name), 'w') as file:
        file.write(content)


class Place:
    """A folder with a clinic, and the commands of both programs over it."""

    def __init__(self, key, host, folder):
        self.key, self.host, self.folder = key, host, folder
        os.makedirs(folder, exist_ok=True)

    def name(self, of):
        return os.path.join(self.folder, of)

    def inputs(self):
        return ['--schema', self.name('schema.sql'), '--data', self.name('tables')]

    def load(self):
        return run([self.key, 'load', *self.inputs(), '--flash', self.name('flash'), '--visible', self.name('visible')])

    def local(self, script, out, *words):
        command = [self.key, 'local', *self.inputs(), '--flash', self.name('local.flash'), '--script', self.name(script), *words]
        return into_file(command, self.name(out))

    def plain(self, script, out):
        return into_file([self.key, 'plain', *self.inputs(), '--script', self.name(script)], self.name(out))

    def refused(self):
        """A key whose words are refused: what it takes before it does anything."""
        return run([self.key, 'query', '--flash', self.name('flash'), '--to', 'x', '--script', 'x', '--plan', 'none'], status=2)

    def query(self, script, out, plan, buffers=32, before=()):
        """A session of two processes: what the key took, and what the host took on a processor."""
        server = subprocess.Popen([self.host, '--visible', self.name('visible'), '--at', '127.0.0.1:0'],
                                  stdout=subprocess.PIPE, text=True)
        port = int(server.stdout.readline().split()[1])
        words = [self.key, 'query', '--flash', self.name('flash'), '--to', '127.0.0.1:%d' % port,
                 '--script', self.name(script), '--plan', plan, '--buffers', str(buffers)]
        spent = into_file([*before, *words], self.name(out))
        cpu, _ = end(server, self.host)
        return spent, cpu

    def calls(self, script, plan, buffers=32):
        """The calls of the flash of a session, counted from outside: pairs of the kind of call, its bytes and its page."""
        log = self.name('calls')
        traced = [STRACE, '-f', '--seccomp-bpf', '-s', '0', '-e', 'trace=pread64,pwrite64', '-o', log]
        self.query(script, 'out.' + plan, plan, buffers, traced)
        with open(log) as lines:
            for found in map(CALL.match, lines):
                if found and int(found[3]) % PAGE == 0:
                    yield found[1], int(found[3]), int(found[4]) // PAGE


class Sqlite:
    """sqlite3 over the clinic of a folder."""

    def __init__(self, place):
        self.place, self.base = place, place.name('base.db')

    def imported(self):
        """Reads the clinic's files into a new file."""
        if os.path.exists(self.base):
            os.remove(self.base)
        words = ['.mode csv', CREATE]
        words += ['.import --skip 1 %s %s' % (self.place.name(os.path.join('tables', table + '.csv')), table) for table in TABLES]
        return run([SQLITE, self.base], given='\n'.join(words) + '\n')

    def indexed(self, columns):
        """Indexes these columns, each by itself."""
        words = ['CREATE INDEX i%d ON %s;' % (number, on) for number, on in enumerate(columns)]
        return run([SQLITE, self.base], given='\n'.join(words) + '\n')

    def texts(self, script):
        with open(self.place.name(script)) as file:
            return into_file([SQLITE, self.base], self.place.name('sqlite.out'), '.mode tabs\n' + file.read())


def sum_of(lines):
    """How many lines there are, and the sum of their digests, which is the same in any order."""
    count, total = 0, 0
    for line in lines:
        count += 1
        total += int.from_bytes(hashlib.md5(line).digest(), 'big')
    return count, total


def rows_of(name):
    """The rows that a program printed, counted and summed."""
    with open(name, 'rb') as out:
        return sum_of(line[2:] for line in out if line.startswith(b'> '))


def lines_of(name):
    """The lines of a file, counted and summed."""
    with open(name, 'rb') as out:
        return sum_of(out)


def title(text):
    print('\n## %s\n' % text, flush=True)


def table(head, rows):
    """Prints a table; what is no number stands as it is, a number with a comma behind each thousand or with two digits."""
    told = lambda it: '' if it is None else '%.2f' % it if isinstance(it, float) else '{:,}'.format(it) if isinstance(it, int) else str(it)
    for row in [head, ['---'] * len(head), *rows]:
        print('| %s |' % ' | '.join(map(told, row)), flush=True)
