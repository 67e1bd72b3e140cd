"""Documents 01 and 02 read once more, in Python: the session, the estimate, the lines that `rig` prints, and packed frames.

It shares nothing with the Rattle code. Python's floats are IEEE doubles and `math.sqrt` is the nearest root, so the
printed bits can be compared digit by digit. `make.py` uses it to say what the samples and tests must print.
"""

import functools
import math
import struct
from fractions import Fraction

VIEWS, CAMERAS, STREAM, BUFFER, FIRST, SECOND = 64, 16, 65536, 7168, 560, 32
FRAME, FRAMES = 30, 1024
IDENTITY = (0.0, 0.0, 0.0, 0.0, 0.0, 0.0, 1.0)


# ---- doubles

def divide(a, b):
    """IEEE division: Python raises where the divisor is 0."""
    if b != 0.0:
        return a / b
    if a == 0.0 or a != a:
        return math.nan
    return math.copysign(math.inf, a) * math.copysign(1.0, b)


def root(a):
    return math.nan if a != a or a < 0.0 else math.sqrt(a)


def finite(a):
    return -math.inf < a < math.inf


# ---- poses: x, y, z, i, j, k, w

def cross(a, b):
    return (a[1] * b[2] - a[2] * b[1], a[2] * b[0] - a[0] * b[2], a[0] * b[1] - a[1] * b[0])


def rotate(q, v):
    u, w = q[:3], q[3]
    t = tuple(2.0 * c for c in cross(u, v))
    ut = cross(u, t)
    return tuple(w * t[n] + ut[n] + v[n] for n in range(3))


def multiply_quaternions(p, q):
    i, j, k, w = p
    a, b, c, d = q
    return (
        w * a + i * d + j * c - k * b,
        w * b - i * c + j * d + k * a,
        w * c + i * b - j * a + k * d,
        w * d - i * a - j * b - k * c,
    )


def product(p, q):
    turned = rotate(p[3:], q[:3])
    return tuple(p[n] + turned[n] for n in range(3)) + multiply_quaternions(p[3:], q[3:])


def inverse(p):
    back = (-p[3], -p[4], -p[5], p[6])
    return rotate(back, tuple(-c for c in p[:3])) + back


def dot(p, q):
    return (p[0] * q[0] + p[2] * q[2]) + (p[1] * q[1] + p[3] * q[3])


def normalize(q):
    norm = root(dot(q, q))
    return tuple(divide(c, norm) for c in q)


def average(poses):
    count = float(len(poses))
    first = poses[0][3:]
    shift, turn = (0.0, 0.0, 0.0), (0.0, 0.0, 0.0, 0.0)
    for pose in poses:
        shift = tuple(shift[n] + pose[n] for n in range(3))
        sign = -1.0 if dot(first, pose[3:]) < 0.0 else 1.0
        turn = tuple(turn[n] + sign * pose[3 + n] for n in range(4))
    shift = tuple(c / count for c in shift)
    if dot(turn, turn) == 0.0:
        return shift + (0.0, 0.0, 0.0, 1.0)
    return shift + normalize(normalize(tuple(c / count for c in turn)))


# ---- the estimate, on a grid of cells: a pose, or None

def size_refusal(views, cameras, reference):
    if views == 0:
        return (1, 0)
    if views > VIEWS:
        return (2, 0)
    if cameras == 0:
        return (1, 0)
    if cameras > CAMERAS:
        return (2, 0)
    if reference >= cameras:
        return (3, 0)
    return None


def estimate(grid, reference):
    """A refusal 7, 8 or 9, or the solved rig: parents, links, the cameras' poses and the views'."""
    views, cameras = len(grid), len(grid[0])
    for v in range(views):
        for c in range(cameras):
            if grid[v][c] is not None and not all(map(finite, grid[v][c])):
                return (7, v * cameras + c), None
    shared = [[sum(1 for row in grid if row[a] is not None and row[b] is not None) for b in range(cameras)] for a in range(cameras)]
    parent, links = {reference: reference}, {reference: 0}
    layer = [reference]
    while layer:
        found = {}
        for c in range(cameras):
            near = [p for p in sorted(layer) if shared[c][p] > 0]
            if c not in parent and near:
                found[c] = max(near, key=lambda p: (shared[c][p], -p))
        for c, p in found.items():
            parent[c], links[c] = p, links[p] + 1
        layer = list(found)
    lost = sum(2 ** c for c in range(cameras) if c not in parent)
    if lost:
        return (8, lost), None
    for v in range(views):
        if all(cell is None for cell in grid[v]):
            return (9, v), None
    rig = {reference: IDENTITY}
    for c in sorted(range(cameras), key=lambda c: links[c]):
        if c != reference:
            p = parent[c]
            rig[c] = product(rig[p], average([product(row[p], inverse(row[c])) for row in grid if row[p] is not None and row[c] is not None]))
    targets = [average([product(rig[c], row[c]) for c in range(cameras) if row[c] is not None]) for row in grid]
    return None, ([parent[c] for c in range(cameras)], [links[c] for c in range(cameras)], [rig[c] for c in range(cameras)], targets)


# ---- the session

@functools.lru_cache(maxsize=8)
def counted(masks):
    """For each two cameras how many views hold poses of both, row after row, and for a camera with itself how many hold one of it: from the held cells alone."""
    held = [{v for v in range(VIEWS) if mask >> v & 1} if mask else set() for mask in masks]
    return tuple(len(first & second) if first else 0 for first in held for second in held)


class Session:
    """The record, the buffer beside it, and the lengths of what is lent. Where no summary is handed in, it is the one that the masks have."""

    def __init__(self, masks=None, views=0, cameras=0, reference=0, buffer=BUFFER, first=FIRST, second=SECOND, shared=None):
        self.masks = list(masks or [0] * CAMERAS)
        self.views, self.cameras, self.reference = views, cameras, reference
        self.buffer, self.first, self.second = buffer, first, second
        self.shared = self.counted() if shared is None else tuple(shared)
        self.cells = {}

    def counted(self):
        return counted(tuple(self.masks))

    def possible(self):
        sizes = (self.views, self.cameras, self.reference)
        if sizes != (0, 0, 0) and size_refusal(*sizes) is not None:
            return False
        if not all(mask >> (self.views if c < self.cameras else 0) == 0 for c, mask in enumerate(self.masks)):
            return False
        return self.shared == self.counted()

    def grid(self):
        zeros = (0.0,) * 7
        return [[self.cells.get((v, c), zeros) if self.masks[c] >> v & 1 else None for c in range(self.cameras)] for v in range(self.views)]

    def call(self, stream, at):
        """One call: the reply, and where the next command begins. A reply is a word, a refusal or a solved rig."""
        end = len(stream)
        if end > STREAM:
            return (13, 0), end
        if self.buffer != BUFFER or self.first < FIRST or self.second < SECOND or not self.possible():
            return (5, 0), end
        if at > end:
            return (11, end), end
        if at == end:
            return 'end', end
        width = {1: 4, 2: 59, 3: 1, 4: 3}.get(stream[at])
        if width is None:
            return (10, stream[at]), end
        if at + width > end:
            return (11, at), end
        return self.obey(stream[at:at + width]), at + width

    def obey(self, command):
        if command[0] == 1:
            views, cameras, reference = command[1:4]
            refusal = (22, 0) if self.views else size_refusal(views, cameras, reference)
            if refusal is None:
                self.views, self.cameras, self.reference = views, cameras, reference
            return refusal or 'accepted'
        if self.views == 0:
            return (21, 0)
        if command[0] == 2:
            view, camera = command[1:3]
            pose = struct.unpack('<7d', command[3:])
            if view >= self.views or camera >= self.cameras:
                return (12, view * 256 + camera)
            if self.masks[camera] >> view & 1:
                return (23, view * 256 + camera)
            if not all(map(finite, pose)):
                return (7, view * self.cameras + camera)
            self.masks[camera] |= 1 << view
            self.cells[view, camera] = pose
            self.shared = self.counted()
            return 'accepted'
        if command[0] == 4:
            view, camera = command[1:3]
            if view >= self.views or camera >= self.cameras:
                return (12, view * 256 + camera)
            if not self.masks[camera] >> view & 1:
                return (24, view * 256 + camera)
            # The seven numbers stay where they are: without its bit nothing looks at the cell.
            self.masks[camera] &= ~(1 << view)
            self.shared = self.counted()
            return 'accepted'
        refusal, solved = estimate(self.grid(), self.reference)
        return refusal or solved

    def query(self, first, second):
        """How many views two cameras share, or a camera's own poses: the entry, or a refusal."""
        if not self.possible():
            return (5, 0)
        if self.views == 0:
            return (21, 0)
        if first >= self.cameras or second >= self.cameras:
            return (12, first * 256 + second)
        return self.shared[CAMERAS * first + second]


# ---- the lines

def bits(a):
    return '7ff8000000000000' if a != a else '%016x' % struct.unpack('<Q', struct.pack('<d', a))[0]


def lines(reply):
    """What a reply prints."""
    if isinstance(reply, str):
        return ''
    if len(reply) == 2:
        return 'no %d %d\n' % reply
    parents, links, rig, targets = reply
    text = 'ok %d %d\n' % (len(rig), len(targets))
    for c, pose in enumerate(rig):
        text += 'c %d %d %d %s\n' % (c, parents[c], links[c], ' '.join(map(bits, pose)))
    for v, pose in enumerate(targets):
        text += 'v %d %s\n' % (v, ' '.join(map(bits, pose)))
    return text


def rig(stream):
    """What the program prints for a stream; it reads no further than one byte past the longest."""
    stream = stream[:STREAM + 1]
    session, at, text = Session(), 0, ''
    while at < len(stream):
        reply, at = session.call(stream, at)
        text += lines(reply)
    return text


# ---- packed frames

def nearest(exact):
    """The double nearest to a fraction: a whole number of 53 binary digits, rounded by exact arithmetic, times a power of two. No doubles are divided. It is for
    fractions whose nearest double has all 53 digits."""
    if exact == 0:
        return 0.0
    # By the digits of both numbers the fraction has 53 or 54 of them before the point.
    power = exact.numerator.bit_length() - exact.denominator.bit_length() - 53
    scaled = exact / Fraction(2) ** power
    if abs(scaled) >= 2 ** 53:
        power, scaled = power + 1, scaled / 2
    # round() of a fraction takes a tie to the even number.
    return math.ldexp(round(scaled), power)


def signed(word):
    """Four bytes, low byte first, as a signed number."""
    count = sum(byte << 8 * place for place, byte in enumerate(word))
    return count - 2 ** 32 if count >= 2 ** 31 else count


def frame_command(frame):
    """The Pose command of one frame."""
    counts = [signed(frame[at:at + 4]) for at in range(2, FRAME, 4)]
    metres = [nearest(Fraction(count, 1000000)) for count in counts[:3]]
    rotation = [nearest(Fraction(count, 2 ** 30)) for count in counts[3:]]
    # "Each rotation number is exact."
    assert all(number * 2 ** 30 == count for number, count in zip(map(Fraction, rotation), counts[3:]))
    return bytes([2, frame[0], frame[1]]) + struct.pack('<7d', *metres, *rotation)


def frames_refusal(length, room):
    if length % FRAME != 0:
        return (14, 0)
    if length // FRAME > FRAMES:
        return (15, 0)
    if room != 59 * (length // FRAME):
        return (5, 0)
    return None


def frames(packed):
    """What the program `frames` writes to standard output, and what it tells on standard error, which is a refusal's line. It lends as much as the frames need."""
    refusal = frames_refusal(len(packed), 59 * (len(packed) // FRAME))
    if refusal:
        return b'', lines(refusal).encode()
    return b''.join(frame_command(packed[at:at + FRAME]) for at in range(0, len(packed), FRAME)), b''
