"""Sessions at several paces, with a host whose answers come late.

Between key and host stands a relay on the loopback that hands on what the host says some milliseconds later.
"""
import os
import queue
import socket
import statistics
import subprocess
import threading
import time

from running import end, say, table, title

PACES = ('0', '1', '1000')
LATE = 0.005
PIECE = 65536


def hand_on(begin, to, late):
    """Hands on what comes from one end to the other, each piece so many seconds after it came."""
    pieces = queue.Queue()

    def send():
        for when, piece in iter(pieces.get, None):
            time.sleep(max(0, when - time.monotonic()))
            to.sendall(piece)
        to.shutdown(socket.SHUT_WR)

    sender = threading.Thread(target=send)
    sender.start()
    while piece := begin.recv(PIECE):
        pieces.put((time.monotonic() + late, piece))
    pieces.put(None)
    sender.join()


def relay(listener, port, late):
    """Stands between the key and a host at a port for one session."""
    key, _ = listener.accept()
    host = socket.create_connection(('127.0.0.1', port))
    for one in (key, host):
        one.setsockopt(socket.IPPROTO_TCP, socket.TCP_NODELAY, 1)
    asks = threading.Thread(target=hand_on, args=(key, host, 0))
    asks.start()
    hand_on(host, key, late)
    asks.join()
    key.close()
    host.close()


def timed_lines(out, begun):
    """The lines that a program prints, each with the seconds after which it came."""
    rest = b''
    while piece := os.read(out.fileno(), PIECE):
        now = time.monotonic() - begun
        *lines, rest = (rest + piece).split(b'\n')
        for line in lines:
            yield now, line


def first_lines(out, begun):
    """When the first line of each text came, and all that was printed."""
    firsts, printed, is_first = [], [], True
    for now, line in timed_lines(out, begun):
        if is_first:
            firsts.append(now)
        is_first = line[:1] in (b'=', b'!')
        printed.append(line)
    return firsts, printed


def session(place, pace):
    """A session at a pace: its seconds, the key's seconds on a processor, when each text's first line came, and the lines."""
    server = subprocess.Popen([place.host, '--visible', place.name('visible'), '--at', '127.0.0.1:0'],
                              stdout=subprocess.PIPE, text=True)
    port = int(server.stdout.readline().split()[1])
    with socket.create_server(('127.0.0.1', 0)) as listener:
        between = threading.Thread(target=relay, args=(listener, port, LATE))
        between.start()
        words = [place.key, 'query', '--flash', place.name('flash'), '--to', '127.0.0.1:%d' % listener.getsockname()[1],
                 '--script', place.name('script.sql'), '--pace', pace]
        begun = time.monotonic()
        process = subprocess.Popen(words, stdout=subprocess.PIPE)
        firsts, printed = first_lines(process.stdout, begun)
        cpu, _ = end(process, place.key)
        seconds = time.monotonic() - begun
        between.join()
    end(server, place.host)
    return seconds, cpu, firsts, printed


def tell(bench):
    """A line for each pace; all have to print the same."""
    visits = bench.visits // 100
    place = bench.clinic(visits)
    ran = {pace: [] for pace in PACES}
    for turn in range(bench.turns):
        for pace in PACES:
            say('turn %d: pace %s' % (turn + 1, pace))
            ran[pace].append(session(place, pace))
    rows = []
    for pace, turns in ran.items():
        firsts = [min(times) for times in zip(*(one[2] for one in turns))]
        rows.append([pace, min(one[0] for one in turns), min(one[1] for one in turns), firsts[0], statistics.mean(firsts), firsts[-1]])
    title('Paces, over %s visits, answers %.0f ms late' % (format(visits, ','), LATE * 1000))
    table(['pace', 'seconds', 'CPU seconds of the key', 'first text after', 'mean text', 'last text'], rows)
    if any(one[3] != ran[PACES[0]][0][3] for turns in ran.values() for one in turns):
        bench.differs('The paces printed different lines')
