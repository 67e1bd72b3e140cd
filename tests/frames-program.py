"""Runs the program `frames` on packed frames whose commands samples/oracle.py knows, over inputs and outputs of all kinds:  python3 -B tests/frames-program.py FRAMES RIG

No frames, one, the most and drawn ones; every length at which the answer changes, and lengths far beyond what the program can hold, from files and from pipes in uneven
pieces; the commands piped into rig; inputs that come late or fail; outputs that are slow, full, closed, or that nobody reads. Commands come on standard output, and a
refusal, or what goes wrong, in one line on standard error: the exit status is 1 where its input or an output failed, and otherwise 0.
"""

import fcntl
import os
import random
import socket
import subprocess
import sys
import tempfile
import threading
import time

HERE = os.path.dirname(os.path.abspath(__file__))
sys.path.insert(0, os.path.join(HERE, '..', 'samples'))

import make
import oracle
from commands import SOLVE, frame, size

FRAMES, RIG = map(os.path.abspath, sys.argv[1:3])
MOST = oracle.FRAME * oracle.FRAMES
DRAWN = 20
PAUSE = 0.05
BROKEN, TOO_MANY = b'no 14 0\n', b'no 15 0\n'
# Of 100 million bytes a program that keeps them all, or counts them in too few digits, would tell something else.
LENGTHS = [
    1, 29, 31, 59, 60, 61, MOST - 30, MOST - 1, MOST, MOST + 1, MOST + 29, MOST + 30, MOST + 31, MOST + 59, MOST + 60, MOST + 61,
    2 * MOST - 1, 2 * MOST, 2 * MOST + 1, 65535, 65536, 65537, 65550, 1000000, 1000020,
]
LONG = [100000000, 100000010, 100000020]
# A count of 32 bits would take these for 14 bytes, and for one frame. They are files of zeros that take no room.
LONGEST = [(2 ** 32 + 14, TOO_MANY), (2 ** 32 + 30, BROKEN)]


def expect(what, printed, wanted, told=b'', wanted_told=b'', status=0, wanted_status=0):
    if printed != wanted or told != wanted_told or status != wanted_status:
        sys.exit('frames: %s: it printed %r.. (%d bytes, and %d were expected), told %r and ended with %d' % (what, printed[:80], len(printed), len(wanted), told, status))


def run(what, wanted, wanted_told=b'', **descriptors):
    """The program with these descriptors: what it prints, what it tells on standard error, and how it ends: with 1 where its input or its output failed."""
    wanted_status = int(wanted_told.startswith(b'frames: standard '))
    done = subprocess.run([FRAMES], stderr=subprocess.PIPE, timeout=60, **{'stdout': subprocess.PIPE, **descriptors})
    expect(what, done.stdout or b'', wanted, done.stderr, wanted_told, done.returncode, wanted_status)


def drawn(numbers, count):
    """So many frames: words of every length and sign, at the ends of their range and around whole metres and turns."""
    def word():
        near = numbers.choice([0, 1000000, 2 ** 30, 2 ** 31, 10 ** numbers.randint(0, 9), 2 ** numbers.randint(0, 31)]) + numbers.randint(-3, 3)
        any_word = numbers.getrandbits(numbers.randint(1, 32))
        return max(-2 ** 31, min(2 ** 31 - 1, numbers.choice([-1, 1]) * numbers.choice([near, any_word, any_word])))

    return b''.join(frame(numbers.randrange(256), numbers.randrange(256), [word() for _ in range(3)], [word() for _ in range(4)]) for _ in range(count))


# ---- frames, and lengths

def check_frames():
    numbers = random.Random(30)
    run('no frames', b'', input=b'')
    run('no input at all', b'', stdin=subprocess.DEVNULL)
    # -1 micrometre is negative, and -2 to the 30 units are exactly -1.
    one = frame(3, 7, (-1, 2 ** 31 - 1, -2 ** 31), (0, -2 ** 30, 1, 2 ** 30))
    bits = 'beb0c6f7a0b5ed8d 40a0c6f7a0945f9e c0a0c6f7a0b5ed8d 0000000000000000 bff0000000000000 3e10000000000000 3ff0000000000000'
    command = bytes([2, 3, 7]) + b''.join(bytes.fromhex(word)[::-1] for word in bits.split())
    run('one frame', command, input=one)
    run('one frame of zeros', bytes([2]) + bytes(58), input=bytes(30))
    counts = [1, 2, oracle.FRAMES - 1, oracle.FRAMES] + [numbers.randint(1, oracle.FRAMES) for _ in range(DRAWN)]
    for count in counts:
        packed = drawn(numbers, count)
        run('%d frames' % count, oracle.frames(packed)[0], input=packed)
    return sum(counts)


def feed(descriptor, length, numbers):
    """So many bytes, in pieces of any length."""
    with os.fdopen(descriptor, 'wb', buffering=0) as file:
        while length > 0:
            piece = min(length, numbers.choice([1, 29, 30, 31, 4096, 65535, 65536, numbers.randint(1, 200000)]))
            length -= file.write(bytes(piece))


def check_lengths():
    """A length is refused by the whole of it, however long. The bytes are zeros: a frame of zeros is a frame."""
    numbers = random.Random(14)
    for length in LENGTHS:
        printed, told = oracle.frames(bytes(length))
        with tempfile.TemporaryFile() as given:
            given.truncate(length)
            run('a file of %d bytes' % length, printed, told, stdin=given)
    for length in LENGTHS + LONG:
        printed, told = oracle.frames(bytes(length))
        given, end = os.pipe()
        writer = threading.Thread(target=feed, args=(end, length, numbers))
        writer.start()
        run('a pipe of %d bytes in uneven pieces' % length, printed, told, stdin=given)
        os.close(given)
        writer.join()
    for length, told in LONGEST:
        with tempfile.TemporaryFile() as given:
            given.truncate(length)
            run('a file of %d bytes' % length, b'', told, stdin=given)
    for length, told in [(29, BROKEN), (30721, BROKEN), (30749, BROKEN), (30750, TOO_MANY), (30751, BROKEN), (65550, TOO_MANY), (1000000, BROKEN), (1000020, TOO_MANY)]:
        expect('the reading of %d bytes' % length, oracle.frames(bytes(length))[1], told)


# ---- piped into rig

def pipe(what, packed, sizes, wanted):
    """A Size, the commands of the frames and a Solve, by the line that a user types."""
    with tempfile.NamedTemporaryFile() as given:
        given.write(packed)
        given.flush()
        octal = ''.join('\\%03o' % byte for byte in sizes)
        line = "{ printf '%s'; '%s' <'%s'; printf '\\003'; } | '%s'" % (octal, FRAMES, given.name, RIG)
        done = subprocess.run(['sh', '-c', line], stdout=subprocess.PIPE, stderr=subprocess.PIPE, timeout=60)
        expect(what, done.stdout, wanted, done.stderr)


def check_rigs():
    with open(os.path.join(HERE, '..', 'samples', 'arm.frames'), 'rb') as file:
        packed = file.read()
    with open(os.path.join(HERE, '..', 'samples', 'arm.listing'), 'rb') as file:
        listing = file.read()
    pipe('the sample', packed, make.ARM_SIZE, listing)
    # The largest rig, from as many frames as there may be.
    numbers = random.Random(1024)
    units = lambda: [numbers.randint(-2 ** 30, 2 ** 30) for _ in range(4)]
    packed = b''.join(frame(v, c, [numbers.randint(-2 ** 31, 2 ** 31 - 1) for _ in range(3)], units()) for v in range(64) for c in range(16))
    sizes = size(64, 16, 5)
    pipe('the largest rig', packed, sizes, oracle.rig(sizes + oracle.frames(packed)[0] + SOLVE).encode())
    # Cells outside the sizes and cells that are named twice are for rig to refuse.
    packed = drawn(numbers, 40) + frame(0, 0, (1, 2, 3), (0, 0, 0, 2 ** 30)) * 2
    sizes = size(1, 1, 0)
    pipe('cells that rig refuses', packed, sizes, oracle.rig(sizes + oracle.frames(packed)[0] + SOLVE).encode())


# ---- inputs

def write_slowly(descriptor, packed):
    with os.fdopen(descriptor, 'wb', buffering=0) as file:
        for piece in (packed[:1], packed[1:30], packed[30:61], packed[61:100], packed[100:]):
            time.sleep(PAUSE)
            file.write(piece)
        time.sleep(PAUSE)


def check_inputs():
    packed = make.arm_frames()
    commands = oracle.frames(packed)[0]
    for blocking in (True, False):
        given, end = os.pipe()
        os.set_blocking(given, blocking)
        writer = threading.Thread(target=write_slowly, args=(end, packed))
        writer.start()
        run('a pipe that is filled late', commands, stdin=given)
        writer.join()
        os.close(given)
    # An input that fails is no input, however much of it was there: whole frames, a part of one, or more than are taken.
    for front in (b'', packed, packed[:-1], bytes(MOST), bytes(MOST + 1), bytes(MOST + 30)):
        given, end = socket.socketpair()
        end.sendall(front)
        given.sendall(b'unread')
        end.close()
        run('an input that fails behind %d bytes' % len(front), b'', b'frames: standard input: Connection reset by peer\n', stdin=given)
        given.close()
    run('an input that is closed', b'', b'frames: standard input: Bad file descriptor\n', preexec_fn=lambda: os.close(0))
    with tempfile.TemporaryDirectory() as folder:
        with open(os.path.join(folder, 'write only'), 'wb') as given:
            run('an input that is open for writing alone', b'', b'frames: standard input: Bad file descriptor\n', stdin=given)
    folder = os.open(HERE, os.O_RDONLY)
    run('a directory', b'', b'frames: standard input: Is a directory\n', stdin=folder)
    os.close(folder)


# ---- outputs

def check_slow():
    """A pipe that holds a page, does not block and is read slowly: some writes are taken in part, others not at all."""
    packed = drawn(random.Random(59), oracle.FRAMES)
    end, taken = os.pipe()
    fcntl.fcntl(taken, fcntl.F_SETPIPE_SZ, 4096)
    os.set_blocking(taken, False)
    program = subprocess.Popen([FRAMES], stdin=subprocess.PIPE, stdout=taken, stderr=subprocess.PIPE)
    os.close(taken)
    program.stdin.write(packed)
    program.stdin.close()
    printed = b''
    while True:
        time.sleep(PAUSE / 10)
        more = os.read(end, 1000)
        if not more:
            break
        printed += more
    os.close(end)
    told = program.stderr.read()
    program.stderr.close()
    expect('a slow pipe that does not block', printed, oracle.frames(packed)[0], told, status=program.wait(timeout=60))


def check_outputs():
    packed = make.arm_frames()
    full = b'frames: standard output: No space left on device\n'
    closed = b'frames: standard output: Bad file descriptor\n'
    with open('/dev/full', 'wb') as taken:
        run('an output that is full', b'', full, input=packed, stdout=taken)
        run('an output that is full, and nothing to write', b'', input=b'', stdout=taken)
        run('an output that is full, and a refusal', b'', BROKEN, input=packed[:-1], stdout=taken)
    with open('/dev/null', 'rb') as taken:
        run('an output that is open for reading alone', b'', closed, input=packed, stdout=taken)
    run('an output that is closed', b'', closed, input=packed, preexec_fn=lambda: os.close(1))
    # Python ignores SIGPIPE, and hands that on to the program unless it restores it, as it does where nothing is said.
    end, taken = os.pipe()
    os.close(end)
    run('a pipe that nobody reads', b'', b'frames: standard output: Broken pipe\n', input=packed, stdout=taken)
    run('a pipe that nobody reads, with SIGPIPE ignored', b'', b'frames: standard output: Broken pipe\n', input=packed, stdout=taken, restore_signals=False)
    os.close(taken)
    # A refusal that nobody can be told of.
    for what, line in [('full', "'%s' 2>/dev/full"), ('closed', "'%s' 2>&-"), ('open for reading alone', "'%s' 2</dev/null")]:
        for given, commands, status in [(packed[:-1], b'', 1), (packed, oracle.frames(packed)[0], 0), (b'', b'', 0)]:
            done = subprocess.run(['sh', '-c', line % FRAMES], input=given, stdout=subprocess.PIPE, timeout=60)
            expect('standard error is %s' % what, done.stdout, commands, status=done.returncode, wanted_status=status)
        done = subprocess.run(['sh', '-c', line % FRAMES + ' <&-'], stdout=subprocess.PIPE, timeout=60)
        expect('standard error is %s, and the input closed' % what, done.stdout, b'', status=done.returncode, wanted_status=1)


def main():
    count = check_frames()
    check_lengths()
    check_rigs()
    check_inputs()
    check_slow()
    check_outputs()
    print('frames: the sample and the largest rig through rig, %d drawn frames, lengths from 0 to %d bytes, inputs and outputs of all kinds, as expected' % (count, max(LONGEST)[0]))


main()
