"""Runs the program on streams whose answers samples/oracle.py knows, over inputs and outputs of all kinds:  python3 -B tests/rig.py RIG

Streams drawn at random, over every count of views and of cameras, with poses taken back among them; others with poses more that are taken back at
once; the largest rig, solved as often as a stream allows; inputs that come in pieces, late, are too long, or fail; outputs that are slow, take a part,
fail at once or later, or that nobody reads. What goes wrong is told on standard error, and the exit status is then 1; otherwise it is 0.
"""

import math
import os
import random
import resource
import socket
import subprocess
import sys
import tempfile
import threading
import time

HERE = os.path.dirname(os.path.abspath(__file__))
sys.path.insert(0, os.path.join(HERE, '..', 'samples'))

import oracle
from commands import SOLVE, pose, size, withdraw

RIG = os.path.abspath(sys.argv[1])
DRAWN = 400
SPARSE = 640
TAKEN_BACK = 200
PAUSE = 0.05


def expect(what, printed, wanted, told=b'', wanted_told=b'', status=0, wanted_status=0):
    if printed != wanted or told != wanted_told or status != wanted_status:
        sys.exit('rig: %s: it printed %r.. (%d bytes), told %r and ended with %d' % (what, printed[:80], len(printed), told, status))


def run(what, wanted, wanted_told=b'', **descriptors):
    """The program with these descriptors: what it prints, what it tells on standard error, and how it ends: with 1 where its input or its output failed."""
    wanted_status = int(wanted_told.startswith(b'rig: standard '))
    done = subprocess.run([RIG], stderr=subprocess.PIPE, timeout=60, **{'stdout': subprocess.PIPE, **descriptors})
    expect(what, done.stdout or b'', wanted, done.stderr, wanted_told, done.returncode, wanted_status)


# ---- streams drawn at random

def drawn_pose(numbers, view, camera):
    values = [numbers.uniform(-2.0, 2.0) for _ in range(7)]
    if numbers.random() < 0.03:
        values[numbers.randrange(7)] = numbers.choice([math.nan, math.inf, -math.inf, -0.0, 1e308, 5e-324])
    return pose(view, camera, values)


def drawn_withdrawal(numbers, sent, views, cameras):
    """Mostly of a cell that was sent, at times of any in the rig, and rarely of one outside; half of the poses are sent again at once."""
    if numbers.random() < 0.1:
        return withdraw(numbers.randrange(256), numbers.randrange(256))
    v, c = numbers.choice(sent) if numbers.random() < 0.8 else (numbers.randrange(views), numbers.randrange(cameras))
    return withdraw(v, c) + (drawn_pose(numbers, v, c) if numbers.random() < 0.5 else b'')


def drawn_stream(numbers):
    """A rig with many of its poses, some of them refused or taken back, solved now and then, and sometimes cut or damaged."""
    views, cameras = (64, 16) if numbers.random() < 0.03 else (numbers.randint(1, 9), numbers.randint(1, 6))
    cells = [(v, c) for v in range(views) for c in range(cameras) if numbers.random() < 0.7]
    numbers.shuffle(cells)
    stream = SOLVE if numbers.random() < 0.1 else b''
    stream += size(views, cameras, numbers.randrange(cameras + (numbers.random() < 0.05)))
    for n, (v, c) in enumerate(cells):
        stream += drawn_pose(numbers, v, c)
        if numbers.random() < 0.1:
            stream += drawn_withdrawal(numbers, cells[:n + 1], views, cameras)
        if numbers.random() < 0.05:
            stream += drawn_pose(numbers, numbers.randrange(256), numbers.randrange(256))
        if numbers.random() < 0.02:
            stream += size(numbers.randrange(70), numbers.randrange(20), 0)
        if views < 64 and numbers.random() < 0.05:
            stream += SOLVE
    stream += SOLVE * numbers.randint(0, 4)
    if cells and numbers.random() < 0.5:
        stream += drawn_withdrawal(numbers, cells, views, cameras) + SOLVE
    if numbers.random() < 0.1:
        stream = stream[:numbers.randrange(len(stream) + 1)]
    if numbers.random() < 0.1:
        at = numbers.randrange(len(stream) + 1)
        stream = stream[:at] + bytes([numbers.randrange(256)]) + stream[at:]
    return stream


def sparse_stream(numbers, views, cameras):
    """Cameras that hang together by one view each, and a pose in every view: most can be solved, some lack a pose, and of some one is taken back and sent
    again, with Solve after each."""
    order = numbers.sample(range(cameras), cameras)
    cells = set()
    for n in range(1, cameras):
        view = numbers.randrange(views)
        cells |= {(view, order[n]), (view, order[numbers.randrange(n)])}
    for view in range(views):
        if not any((view, c) in cells for c in range(cameras)):
            cells.add((view, numbers.randrange(cameras)))
    cells = sorted(cells)
    numbers.shuffle(cells)
    if numbers.random() < 0.2:
        cells.pop()
    stream = size(views, cameras, numbers.randrange(cameras)) + b''.join(drawn_pose(numbers, v, c) for v, c in cells)
    stream += SOLVE * numbers.randint(1, 3)
    if cells and numbers.random() < 0.5:
        v, c = numbers.choice(cells)
        stream += withdraw(v, c) + SOLVE + drawn_pose(numbers, v, c) + SOLVE
    return stream


def check_sparse():
    """Every count of views, and every count of cameras, again and again."""
    numbers = random.Random(64016)
    for n in range(SPARSE):
        views, cameras = n % oracle.VIEWS + 1, numbers.randint(1, oracle.CAMERAS) if n >= oracle.CAMERAS else n + 1
        stream = sparse_stream(numbers, views, cameras)
        run('%d views of %d cameras, stream %d' % (views, cameras, n), oracle.rig(stream).encode(), input=stream)


def check_drawn():
    numbers = random.Random(1116)
    for n in range(DRAWN):
        stream = drawn_stream(numbers)
        run('stream %d drawn at random' % n, oracle.rig(stream).encode(), input=stream)


# ---- poses taken back as the next command

def with_more(numbers, stream):
    """The stream with poses of empty cells put between its commands, each withdrawn by the next command; and how many."""
    session, at, text, more = oracle.Session(), 0, b'', 0
    while at < len(stream):
        empty = [(v, c) for c in range(session.cameras) for v in range(session.views) if not session.masks[c] >> v & 1]
        if empty and numbers.random() < 0.3:
            v, c = numbers.choice(empty)
            text += pose(v, c, [numbers.choice([-1.0, 1.0]) * 10.0 ** numbers.randint(-300, 300) for _ in range(7)]) + withdraw(v, c)
            more += 1
        before = at
        _, at = session.call(stream, at)
        text += stream[before:at]
    return text, more


def check_taken_back():
    """What such streams print is what they print without those poses: nothing of them is left."""
    numbers = random.Random(204)
    taken_back = 0
    for n in range(TAKEN_BACK):
        views, cameras = numbers.randint(1, 9), numbers.randint(1, 6)
        stream = sparse_stream(numbers, views, cameras) if n % 2 else size(views, cameras, 0) + b''.join(drawn_pose(numbers, v, c) + SOLVE for v in range(views) for c in range(cameras))
        longer, more = with_more(numbers, stream)
        run('stream %d with %d poses taken back' % (n, more), oracle.rig(stream).encode(), input=longer)
        taken_back += more
    if taken_back < TAKEN_BACK:
        sys.exit('rig: %d poses taken back, which is too few' % taken_back)
    return taken_back


# ---- the largest rig

def largest():
    """64 views of 16 cameras, all held; and what a Solve of it prints."""
    numbers = random.Random(64)
    start = size(64, 16, 15) + b''.join(pose(v, c, [numbers.uniform(-1.0, 1.0) for _ in range(7)]) for v in range(64) for c in range(16))
    return start, oracle.rig(start + SOLVE).encode()


def check_largest(start, listing):
    """Solved as often as the stream has bytes for: every Solve prints the same lines."""
    solves = oracle.STREAM - len(start)
    with tempfile.TemporaryFile() as given, tempfile.TemporaryFile() as printed:
        given.write(start + SOLVE * solves)
        given.seek(0)
        subprocess.run([RIG], stdin=given, stdout=printed, check=True, timeout=60)
        if printed.tell() != len(listing) * solves:
            sys.exit('rig: %d bytes printed for %d Solves of %d bytes' % (printed.tell(), solves, len(listing)))
        printed.seek(0)
        for n in range(solves):
            expect('Solve %d of the largest rig' % n, printed.read(len(listing)), listing)
    return solves, len(listing) * solves


# ---- inputs

def sample():
    with open(os.path.join(HERE, '..', 'samples', 'five_cameras.stream'), 'rb') as file:
        return file.read()


def pieces(stream):
    """Cut within a command and between two."""
    return [stream[:2], stream[2:4], stream[4:63], stream[63:70], stream[70:]]


def write_slowly(descriptor, stream):
    with os.fdopen(descriptor, 'wb', buffering=0) as file:
        for piece in pieces(stream):
            time.sleep(PAUSE)
            file.write(piece)
        time.sleep(PAUSE)


def check_inputs():
    stream = sample()
    listing = oracle.rig(stream).encode()
    with tempfile.TemporaryDirectory() as folder:
        fifo = os.path.join(folder, 'fifo')
        os.mkfifo(fifo)
        writer = threading.Thread(target=lambda: write_slowly(os.open(fifo, os.O_WRONLY), stream))
        writer.start()
        with open(fifo, 'rb') as given:
            run('a FIFO that delivers in pieces', listing, stdin=given)
        writer.join()
        with open(os.path.join(folder, 'read only'), 'wb') as given:
            run('an input that is open for writing alone', b'', b'rig: standard input: Bad file descriptor\n', stdin=given)
    given, end = os.pipe()
    os.set_blocking(given, False)
    writer = threading.Thread(target=write_slowly, args=(end, stream))
    writer.start()
    before = resource.getrusage(resource.RUSAGE_CHILDREN)
    run('an empty pipe that does not block, filled later', listing, stdin=given)
    after = resource.getrusage(resource.RUSAGE_CHILDREN)
    writer.join()
    os.close(given)
    busy = after.ru_utime + after.ru_stime - before.ru_utime - before.ru_stime
    if busy > PAUSE * 2:
        sys.exit('rig: it kept the processor busy for %.2f s while it waited' % busy)
    given, end = socket.socketpair()
    end.sendall(stream)
    given.sendall(b'unread')
    end.close()
    run('an input that fails behind a whole stream', b'', b'rig: standard input: Connection reset by peer\n', stdin=given)
    given.close()
    run('an input that is closed', b'', b'rig: standard input: Bad file descriptor\n', preexec_fn=lambda: os.close(0))
    folder = os.open(HERE, os.O_RDONLY)
    run('a directory', b'', b'rig: standard input: Is a directory\n', stdin=folder)
    os.close(folder)
    run('no input at all', b'', stdin=subprocess.DEVNULL)
    for length in (oracle.STREAM + 1, oracle.STREAM + 2, 200000):
        run('a pipe of %d bytes' % length, b'no 13 0\n', input=SOLVE * length)
        with tempfile.TemporaryFile() as given:
            given.write(SOLVE * length)
            given.seek(0)
            run('a file of %d bytes' % length, b'no 13 0\n', stdin=given)


# ---- outputs

def check_slow(start, listing):
    """A pipe that does not block and is read slowly. It takes what it has room for, so that some writes of a listing, which is longer than PIPE_BUF, are taken in part."""
    solves = 40
    end, taken = os.pipe()
    os.set_blocking(taken, False)
    program = subprocess.Popen([RIG], stdin=subprocess.PIPE, stdout=taken, stderr=subprocess.PIPE)
    os.close(taken)
    program.stdin.write(start + SOLVE * solves)
    program.stdin.close()
    printed = b''
    while True:
        time.sleep(PAUSE / 10)
        more = os.read(end, 5000)
        if not more:
            break
        printed += more
    os.close(end)
    told = program.stderr.read()
    program.stderr.close()
    expect('a slow pipe that does not block', printed, listing * solves, told, status=program.wait(timeout=60))


def check_outputs(start, listing):
    full = b'rig: standard output: No space left on device\n'
    closed = b'rig: standard output: Bad file descriptor\n'
    with open('/dev/full', 'wb') as taken:
        run('an output that is full', b'', full, input=start + SOLVE * 2, stdout=taken)
        run('an output that is full, and one refusal', b'', full, input=SOLVE, stdout=taken)
        run('an output that is full, and nothing to print', b'', input=start, stdout=taken)
    with open('/dev/null', 'rb') as taken:
        run('an output that is open for reading alone', b'', closed, input=SOLVE, stdout=taken)
    run('an output that is closed', b'', closed, input=SOLVE, preexec_fn=lambda: os.close(1))
    # Python ignores SIGPIPE and SIGXFSZ, and hands that on to the program unless it restores them, as it does where nothing is said.
    for room in (5000, len(listing) + 5000):
        with tempfile.TemporaryFile() as taken:
            limit = lambda: resource.setrlimit(resource.RLIMIT_FSIZE, (room, room))
            run('a file of %d bytes at most' % room, b'', b'rig: standard output: File too large\n', input=start + SOLVE * 9, stdout=taken, preexec_fn=limit, restore_signals=False)
            taken.seek(0)
            expect('what a file of %d bytes at most holds' % room, taken.read(), (listing * 2)[:room])
    end, taken = os.pipe()
    os.close(end)
    run('a pipe that nobody reads', b'', b'rig: standard output: Broken pipe\n', input=SOLVE, stdout=taken)
    run('a pipe that nobody reads, with SIGPIPE ignored', b'', b'rig: standard output: Broken pipe\n', input=SOLVE, stdout=taken, restore_signals=False)
    os.close(taken)


def main():
    start, listing = largest()
    check_inputs()
    check_slow(start, listing)
    check_outputs(start, listing)
    solves, bytes_printed = check_largest(start, listing)
    check_sparse()
    check_drawn()
    taken_back = check_taken_back()
    print('rig: %d Solves of 64 views and 16 cameras (%d bytes), %d drawn streams, %d poses taken back at once, inputs and outputs of all kinds, as expected' % (solves, bytes_printed, DRAWN + SPARSE, taken_back))


main()
