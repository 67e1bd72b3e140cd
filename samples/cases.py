"""The cases of the program `test_session`: every refusal with its detail, every rule of order, and rigs that are solved.

A case is a label, a record, an offset, the lengths of what is lent, two cameras to ask for, and a stream. `encode` says how
the program reads one, `expected` what it must print: for each call the next offset and the reply, then the record with its
summary of shared counts, and what the query answers for the two cameras.
"""

import math
import random
import struct

import oracle
from commands import SOLVE, pose, size, withdraw

GOOD = (0.5, -0.25, 2.0, 0.0, 0.0, 0.0, 1.0)
LISTING = size(1, 1, 0) + pose(0, 0, (1.0, 0.0, 0.0, 0.0, 0.0, 0.0, 1.0)) + SOLVE


class Case:
    """Where no summary is handed in, it is the one that the masks have; where no cameras are named, `cases` names two."""

    def __init__(self, label, stream, at=0, masks=(), views=0, cameras=0, reference=0, buffer=oracle.BUFFER, first=oracle.FIRST, second=oracle.SECOND, shared=None, asked=None):
        self.label, self.stream, self.at = label, stream, at
        self.masks = list(masks) + [0] * (oracle.CAMERAS - len(masks))
        self.record = (views, cameras, reference)
        self.lengths = (buffer, first, second)
        self.shared = oracle.counted(tuple(self.masks)) if shared is None else tuple(shared)
        self.asked = asked

    def encode(self):
        """A line of 64 bytes, 26 words of 64 bits, low byte first, the summary's 256 bytes, and the stream."""
        line = (self.label + ' ').ljust(63, '-').encode() + b'\n'
        assert len(line) == 64, self.label
        words = [*self.masks, *self.record, self.at, *self.lengths, len(self.stream), *self.asked]
        return line + struct.pack('<26Q', *words) + bytes(self.shared) + self.stream

    def expected(self):
        session = oracle.Session(self.masks, *self.record, *self.lengths, self.shared)
        at, text = self.at, (self.label + ' ').ljust(63, '-') + '\n'
        while True:
            reply, at = session.call(self.stream, at)
            text += '%d %s' % (at, reply + '\n' if isinstance(reply, str) else oracle.lines(reply))
            if at >= len(self.stream):
                break
        fields = (session.views, session.cameras, session.reference, *session.masks)
        text += 'record ' + ' '.join('%x' % f for f in fields) + '\n'
        text += 'shared ' + ' '.join('%x' % count for count in session.shared) + '\n'
        answer = session.query(*self.asked)
        return text + 'asked %d %d: %s' % (*self.asked, '%d\n' % answer if isinstance(answer, int) else oracle.lines(answer))


# ---- sizes, and what comes before and after them

def size_cases():
    for label, sizes in [
        ('no views', (0, 1, 0)),
        ('no cameras', (1, 0, 0)),
        ('no views goes before too many cameras and the reference', (0, 17, 20)),
        ('too many views', (65, 1, 0)),
        ('too many views goes before no cameras', (65, 0, 9)),
        ('no cameras goes before the reference', (1, 0, 9)),
        ('too many cameras', (1, 17, 0)),
        ('too many cameras goes before the reference', (1, 17, 20)),
        ('the reference is the camera count', (1, 16, 16)),
        ('the largest sizes', (64, 16, 15)),
        ('the largest bytes', (255, 255, 255)),
    ]:
        yield Case(label, size(*sizes))
    yield Case('sizes again', size(2, 2, 0) + size(2, 2, 0))
    yield Case('sizes again goes before no views', size(2, 2, 0) + size(0, 0, 0))
    yield Case('a refused size leaves none', size(0, 1, 0) + SOLVE + pose(0, 0, GOOD) + size(1, 1, 0) + pose(0, 0, GOOD) + SOLVE)
    yield Case('a pose before sizes', pose(0, 0, GOOD))
    yield Case('a pose before sizes goes before not finite', pose(0, 0, (math.nan,) * 7))
    yield Case('solve before sizes', SOLVE)


# ---- the stream's own faults

def stream_cases():
    yield Case('an empty stream', b'')
    yield Case('the offset is the length', LISTING, at=64)
    yield Case('the offset is past the end', LISTING, at=65)
    yield Case('an offset past the end of an empty stream', b'', at=1)
    yield Case('an offset far past the end', LISTING, at=2 ** 63 - 1)
    yield Case('an offset in the middle', LISTING, at=4)
    yield Case('an offset within a command', LISTING, at=1)
    for byte in (0, 9, 255):
        yield Case('unknown byte %d' % byte, bytes([byte]) + LISTING)
    yield Case('an unknown byte after commands', LISTING + bytes([7]) + SOLVE)
    yield Case('an unknown byte goes before no sizes', bytes([9, 2, 3]))
    for end in range(1, len(LISTING)):
        yield Case('the listing\'s first %d bytes' % end, LISTING[:end])
    yield Case('a size cut short goes before sizes again', size(1, 1, 0) + size(0, 0, 0)[:3])
    yield Case('a pose cut short goes before no sizes', pose(0, 0, GOOD)[:58])
    yield Case('a pose cut short goes before its faults', size(1, 1, 0) + pose(9, 9, (math.nan,) * 7)[:58])
    yield Case('65536 bytes', bytes([5]) * 65536)
    yield Case('65537 bytes', bytes([5]) * 65537)
    yield Case('65537 bytes go before a wrong length', LISTING.ljust(65537, b'\3'), buffer=7167)


# ---- lengths and records that do not fit

def record_cases():
    for label, lengths in [
        ('a buffer of one float fewer', {'buffer': 7167}),
        ('a buffer of one float more', {'buffer': 7169}),
        ('a first answer of one float fewer', {'first': 559}),
        ('a first answer of one float more', {'first': 561}),
        ('a second answer of one byte fewer', {'second': 31}),
        ('a second answer of one byte more', {'second': 33}),
    ]:
        yield Case(label, LISTING, **lengths)
    yield Case('a wrong length goes before the end', b'', buffer=0)
    yield Case('a wrong length goes before an offset past the end', b'', at=5, second=0)
    yield Case('a wrong length goes before an unknown byte', b'\0', first=0)
    for label, record in [
        ('cameras without views', {'cameras': 1}),
        ('a reference without sizes', {'reference': 1}),
        ('views without cameras', {'views': 1}),
        ('a record of 65 views', {'views': 65, 'cameras': 1}),
        ('a record of 17 cameras', {'views': 1, 'cameras': 17}),
        ('a record whose reference is its camera count', {'views': 1, 'cameras': 2, 'reference': 2}),
        ('a mask without sizes', {'masks': [1]}),
        ('a mask with a view past the last', {'views': 3, 'cameras': 2, 'masks': [7, 8]}),
        ('a mask of a camera past the last', {'views': 3, 'cameras': 2, 'masks': [7, 7, 1]}),
        ('a mask of the last camera past the sizes', {'views': 3, 'cameras': 15, 'masks': [7] * 15 + [2 ** 63]}),
        ('a record with every view', {'views': 64, 'cameras': 2, 'masks': [2 ** 64 - 1, 2 ** 63]}),
        ('a record with poses', {'views': 3, 'cameras': 2, 'reference': 1, 'masks': [7, 5]}),
        ('a record with sizes', {'views': 1, 'cameras': 1}),
    ]:
        yield Case(label, SOLVE, **record)
    yield Case('an impossible record goes before an offset past the end', SOLVE, at=2, cameras=1)


# ---- poses

def pose_cases():
    sized = size(3, 2, 0)
    for view, camera in [(3, 0), (0, 2), (3, 2), (255, 255)]:
        yield Case('view %d, camera %d of 3 and 2' % (view, camera), sized + pose(view, camera, GOOD))
    yield Case('outside the sizes goes before not finite', sized + pose(3, 0, (math.nan,) * 7))
    yield Case('a cell held already', sized + pose(2, 1, GOOD) + pose(2, 1, GOOD))
    yield Case('held already goes before not finite', sized + pose(1, 1, GOOD) + pose(1, 1, (math.inf,) * 7))
    for number in (math.nan, math.inf, -math.inf):
        for place in range(7):
            yield Case('number %d is %s' % (place, number), sized + pose(2, 1, [number if n == place else GOOD[n] for n in range(7)]))
    for bits in (0xfff8000000000000, 0x7ff0000000000001, 0xffffffffffffffff):
        offered = bytearray(pose(2, 1, GOOD))
        offered[3:11] = bits.to_bytes(8, 'little')
        yield Case('a NaN of bits %016x' % bits, sized + bytes(offered))
    yield Case('a refused pose is not held', sized + pose(1, 1, (math.nan,) * 7) + pose(1, 1, GOOD))
    extremes = (1.7976931348623157e308, -5e-324, -0.0, 2.2250738585072014e-308, 0.1, -1e-300, 1e300)
    yield Case('the least and the largest numbers', size(1, 1, 0) + pose(0, 0, extremes) + SOLVE)


# ---- poses taken back

BAD = (1e300, -1e300, 1e300, 0.0, 1.0, 0.0, 0.0)


def withdraw_cases():
    sized = size(3, 2, 0)
    held = sized + pose(2, 1, GOOD)
    yield Case('a withdrawal before sizes', withdraw(0, 0))
    yield Case('a withdrawal before sizes goes before outside', withdraw(255, 255))
    yield Case('a withdrawal after a refused size', size(0, 1, 0) + withdraw(0, 0))
    for view, camera in [(3, 1), (2, 2), (3, 2), (255, 255)]:
        yield Case('view %d, camera %d of 3 and 2 withdrawn' % (view, camera), held + withdraw(view, camera))
    for view, camera in [(0, 0), (2, 0), (0, 1), (1, 1)]:
        yield Case('view %d, camera %d withdrawn, which is empty' % (view, camera), held + withdraw(view, camera))
    for end in (1, 2):
        yield Case('a withdrawal\'s first %d bytes' % end, held + withdraw(2, 1)[:end])
        yield Case('a withdrawal\'s first %d bytes go before no sizes' % end, withdraw(2, 1)[:end])
        yield Case('a withdrawal\'s first %d bytes go before its faults' % end, held + withdraw(9, 9)[:end])
    yield Case('a pose withdrawn', held + withdraw(2, 1))
    yield Case('withdrawn twice', held + withdraw(2, 1) + withdraw(2, 1))
    yield Case('a refused pose is not there to withdraw', sized + pose(2, 1, (math.nan,) * 7) + withdraw(2, 1))
    yield Case('a withdrawn cell takes one finite pose again', held + withdraw(2, 1) + pose(2, 1, (math.nan,) * 7) + pose(2, 1, BAD) + pose(2, 1, GOOD))
    yield Case('an unknown byte after a withdrawal', held + withdraw(2, 1) + bytes([9]) + withdraw(2, 1))
    # Nothing but the one cell: every other is still held, by its camera and in its view.
    cells = [(v, c) for v in range(3) for c in range(2)]
    full = size(3, 2, 0) + b''.join(pose(v, c, numbered(v, c)) for v, c in cells)
    for v, c in cells:
        others = b''.join(pose(*cell, GOOD) for cell in cells if cell != (v, c))
        yield Case('view %d, camera %d withdrawn, all others held' % (v, c), full + withdraw(v, c) + others + withdraw(v, c) + SOLVE)
    # Records handed in, with the first and the last bits of masks.
    every = {'views': 64, 'cameras': 16, 'masks': [2 ** 64 - 1] * 16}
    for view, camera in [(0, 0), (63, 0), (0, 15), (63, 15), (31, 7), (32, 8)]:
        yield Case('view %d, camera %d withdrawn of 64 and 16' % (view, camera), withdraw(view, camera) * 2, **every)
    yield Case('every view of a camera withdrawn', b''.join(withdraw(v, 9) for v in range(64)) + SOLVE, **every)
    yield Case('an impossible record goes before a withdrawal', withdraw(0, 0), views=1, cameras=1, masks=[3])
    yield Case('a wrong length goes before a withdrawal', withdraw(0, 0), views=1, cameras=1, masks=[1], buffer=7169)
    yield Case('an offset within a withdrawal', withdraw(1, 3), at=2, views=2, cameras=1, masks=[3])


def sent_again_cases():
    """Rigs of which poses are taken back, and most of them sent again."""
    first = (4.0, 0.0, 0.0, 0.0, 1.0, 0.0, 0.0)
    yield Case('the numbers sent again count', size(1, 1, 0) + pose(0, 0, first) + SOLVE + withdraw(0, 0) + pose(0, 0, GOOD) + SOLVE)
    cells = [(v, c) for v in range(3) for c in range(3)]
    bumped = rig_of(cells, 3, 3, 1, lambda v, c: BAD if (v, c) == (1, 2) else numbered(v, c))
    mended = bumped + withdraw(1, 2) + SOLVE + pose(1, 2, numbered(1, 2)) + SOLVE
    assert oracle.rig(mended).endswith(oracle.rig(rig_of(cells, 3, 3, 1, numbered)))
    yield Case('a bumped target', mended)
    yield Case('two poses of a view withdrawn', bumped + withdraw(1, 2) + withdraw(1, 1) + SOLVE + pose(1, 2, GOOD) + pose(1, 1, GOOD) + SOLVE)
    # What a withdrawn cell holds decides nothing: these rigs are all the same, with the cell never held at last.
    without = [cell for cell in cells if cell != (1, 2)]
    never = rig_of(without, 3, 3, 1, numbered)
    yield Case('a cell never held', never)
    for label, numbers in [('zeros', (0.0,) * 7), ('large numbers', BAD), ('the least numbers', (5e-324,) * 7), ('a good pose', numbered(1, 2))]:
        stream = never[:-1] + pose(1, 2, numbers) + withdraw(1, 2) + SOLVE
        assert oracle.rig(stream) == oracle.rig(never)
        yield Case('%s in a withdrawn cell' % label, stream)
    # Cameras 0 to 2 and 3 to 5 hang together by view 2 alone, in which 2 and 3 saw the target.
    halves = [(0, 0), (0, 1), (1, 1), (1, 2), (2, 2), (2, 3), (3, 3), (3, 4), (4, 4), (4, 5)]
    joined = rig_of(halves, 5, 6, 0, numbered)
    for camera in (2, 3):
        yield Case('the only link withdrawn from camera %d' % camera, joined + withdraw(2, camera) + SOLVE + pose(2, camera, numbered(2, camera)) + SOLVE)
    yield Case('the only link withdrawn from both', joined + withdraw(2, 2) + withdraw(2, 3) + SOLVE + pose(2, 3, GOOD) + SOLVE + pose(2, 2, GOOD) + SOLVE)
    yield Case('the only link withdrawn, with the reference behind it', rig_of(halves, 5, 6, 4, numbered) + withdraw(2, 2) + SOLVE)
    yield Case('another link of two is left', rig_of(halves + [(0, 3)], 5, 6, 0, numbered) + withdraw(2, 3) + SOLVE)
    seen = [(0, 0), (0, 1), (1, 0), (1, 1), (2, 1)]
    yield Case('a view\'s only pose withdrawn', rig_of(seen, 3, 2, 0, numbered) + withdraw(2, 1) + SOLVE + pose(2, 0, GOOD) + SOLVE)
    yield Case('two views\' only poses withdrawn', rig_of(seen, 3, 2, 0, numbered) + withdraw(2, 1) + withdraw(0, 0) + withdraw(0, 1) + SOLVE)
    yield Case('every pose withdrawn', rig_of(seen, 3, 2, 0, numbered) + b''.join(withdraw(v, c) for v, c in seen) + SOLVE)
    yield Case('the reference\'s poses withdrawn', rig_of(seen, 3, 2, 0, numbered) + withdraw(0, 0) + withdraw(1, 0) + SOLVE)
    # Camera 2 shares two views with camera 1 and one with camera 0: with one fewer the lowest is its parent, and with none of 0 again camera 1.
    shared = [(0, 0), (0, 1), (0, 3), (1, 0), (1, 2), (2, 1), (2, 2), (3, 1), (3, 2)]
    yield Case('a parent changes with a withdrawal', rig_of(shared, 4, 4, 3, numbered) + withdraw(3, 1) + SOLVE + withdraw(1, 0) + SOLVE)


# ---- shared counts: summaries handed in, the query, and the entries after commands

SEEN = [0b11111, 0b00111, 0b10101, 0b01000]
RECORD = {'views': 5, 'cameras': 4, 'reference': 1, 'masks': SEEN}
FULL = {'views': 64, 'cameras': 16, 'masks': [2 ** 64 - 1] * 16}


def true_counts(masks):
    return oracle.counted(tuple(masks) + (0,) * (oracle.CAMERAS - len(masks)))


def altered(masks, changes):
    """The true counts, but for the entries of these pairs of cameras: what each becomes."""
    counts = list(true_counts(masks))
    for (first, second), change in changes.items():
        counts[16 * first + second] = change(counts[16 * first + second]) % 256
    return counts


def more(count):
    return count + 1


def fewer(count):
    return count - 1


def summary_cases():
    """Summaries handed in: each with a false entry is 5, for the stream and for the query, and each true one is taken."""
    yield Case('a summary that is true', SOLVE, asked=(0, 2), **RECORD)
    for label, place in [('the diagonal', (1, 1)), ('the upper half', (0, 2)), ('the lower half', (2, 0)), ('a pair that shares none', (3, 1)), ('the first entry', (0, 0))]:
        for word, change in [('one more', more), ('one fewer', fewer), ('255', lambda count: 255)]:
            yield Case('%s in %s' % (word, label), SOLVE, asked=place, shared=altered(SEEN, {place: change}), **RECORD)
    for place in [(0, 4), (4, 0), (4, 4), (3, 15), (15, 3), (15, 15)]:
        yield Case('an entry of cameras %d and %d, of four' % place, SOLVE, asked=(0, 0), shared=altered(SEEN, {place: more}), **RECORD)
    for label, changes in [
        ('one more in both entries of a pair', {(0, 1): more, (1, 0): more}),
        ('one fewer in both entries of a pair', {(1, 2): fewer, (2, 1): fewer}),
        ('one more here and one fewer there', {(0, 1): more, (0, 2): fewer}),
        ('both entries of a pair outside the sizes', {(0, 4): more, (4, 0): more}),
        ('the diagonal left out', {(c, c): lambda count: 0 for c in range(4)}),
        ('the upper half left out', {(a, b): lambda count: 0 for a in range(4) for b in range(a + 1, 4)}),
        ('the lower half left out', {(a, b): lambda count: 0 for a in range(4) for b in range(a)}),
        ('one more in every entry', {(a, b): more for a in range(16) for b in range(16)}),
    ]:
        yield Case(label, SOLVE, asked=(0, 1), shared=altered(SEEN, changes), **RECORD)
    yield Case('a summary of zeros, with poses', SOLVE, asked=(3, 2), shared=[0] * 256, **RECORD)
    yield Case('the summary of two cameras swapped', SOLVE, asked=(1, 1), shared=true_counts([SEEN[0], SEEN[2], SEEN[1], SEEN[3]]), **RECORD)
    yield Case('the summary of as many poses in other views', SOLVE, asked=(2, 1), shared=true_counts([SEEN[0], 0b01110, SEEN[2], SEEN[3]]), **RECORD)
    yield Case('the summary of one view more', SOLVE, asked=(0, 0), shared=true_counts([0b111111] + SEEN[1:]), **RECORD)
    for place in [(0, 0), (0, 1), (15, 15)]:
        yield Case('a fresh record with an entry of %d and %d' % place, size(2, 2, 0), asked=(9, 9), shared=altered([], {place: more}))
        yield Case('sizes without poses with an entry of %d and %d' % place, pose(0, 0, GOOD), views=2, cameras=2, asked=(0, 0), shared=altered([], {place: more}))
    yield Case('64 in every entry', withdraw(63, 15), asked=(15, 0), **FULL)
    for place in [(0, 0), (15, 15), (0, 15), (15, 0), (7, 8)]:
        for word, change in [('65', more), ('63', fewer)]:
            yield Case('%s in the entry of %d and %d, all others 64' % (word, *place), SOLVE, asked=place, shared=altered(FULL['masks'], {place: change}), **FULL)
    # Its place among the faults.
    false = {**RECORD, 'shared': altered(SEEN, {(0, 1): more})}
    yield Case('a false entry goes before an offset past the end', SOLVE, at=5, asked=(0, 0), **false)
    yield Case('a false entry goes before an unknown byte', bytes([9]), asked=(1, 0), **false)
    yield Case('a false entry goes before the end', b'', asked=(1, 0), **false)
    yield Case('a false entry goes before a withdrawal', withdraw(0, 0) + withdraw(0, 0), asked=(0, 1), **false)
    yield Case('65537 bytes go before a false entry', LISTING.ljust(65537, b'\3'), asked=(0, 1), **false)


def query_cases():
    """The query: 5, 21, 12 with both cameras as its detail, in this order, and else the entry. What is lent beside the record is nothing to it."""
    for asked in [(0, 0), (16, 0), (255, 255)]:
        yield Case('cameras %d and %d of a fresh session' % asked, b'', asked=asked)
        yield Case('cameras %d and %d after a refused size' % asked, size(0, 1, 0), asked=asked)
        yield Case('cameras %d and %d with a reference alone' % asked, b'', asked=asked, reference=1)
        yield Case('cameras %d and %d with a mask without sizes' % asked, b'', asked=asked, masks=[1])
        yield Case('cameras %d and %d with a view past the last' % asked, b'', asked=asked, views=1, cameras=1, masks=[2])
    for asked in [(4, 0), (0, 4), (4, 4), (3, 4), (4, 3), (15, 3), (0, 16), (16, 0), (1, 255), (255, 1), (255, 255)]:
        yield Case('cameras %d and %d, of four' % asked, b'', asked=asked, **RECORD)
    for asked in [(16, 16), (0, 16), (16, 0), (15, 16), (16, 15), (15, 17)]:
        yield Case('cameras %d and %d, of sixteen' % asked, b'', asked=asked, **FULL)
    for first in range(4):
        for second in range(4):
            yield Case('cameras %d and %d share' % (first, second), b'', asked=(first, second), **RECORD)
    # Sixteen cameras of which no two pairs share as many views as another pair of neighbours.
    stairs = [2 ** (4 * c + 4) - 1 for c in range(16)]
    for asked in [(0, 0), (15, 15), (0, 15), (15, 0), (14, 15), (15, 14), (7, 8), (8, 7), (1, 0), (0, 1)]:
        yield Case('cameras %d and %d of sixteen share' % asked, b'', asked=asked, views=64, cameras=16, masks=stairs)
    yield Case('a query where a length does not fit', SOLVE, buffer=7167, asked=(0, 2), **RECORD)
    yield Case('a query where the stream is too long', LISTING.ljust(65537, b'\3'), asked=(2, 0), **RECORD)


def kept_cases():
    """Records handed in with many poses: what each command leaves of the summary."""
    yield Case('a pose counts for its own camera alone', pose(3, 2, GOOD) + pose(3, 3, GOOD), asked=(2, 2), views=5, cameras=4, masks=[1, 2, 4])
    yield Case('a pose counts for those that saw its view', pose(3, 2, GOOD), asked=(2, 3), **RECORD)
    yield Case('a refused pose counts for none', pose(3, 2, (math.nan,) * 7) + pose(0, 0, GOOD) + pose(5, 0, GOOD) + pose(0, 4, GOOD), asked=(2, 3), **RECORD)
    yield Case('a withdrawal counts down', withdraw(2, 0), asked=(0, 1), **RECORD)
    yield Case('a refused withdrawal counts none down', withdraw(3, 2) + withdraw(5, 0) + withdraw(0, 4), asked=(2, 0), **RECORD)
    yield Case('a pose and its withdrawal', pose(3, 2, GOOD) + withdraw(3, 2), asked=(2, 3), **RECORD)
    yield Case('every view of two cameras withdrawn', b''.join(withdraw(v, c) for v in range(64) for c in (3, 12)), asked=(3, 12), **FULL)
    yield Case('the last of 64 views of a camera', pose(63, 15, GOOD), asked=(15, 14), views=64, cameras=16, masks=[2 ** 64 - 1] * 15 + [2 ** 63 - 1])
    for camera in (0, 7, 15):
        masks = [2 ** 64 - 1] * 16
        masks[camera] = 0
        yield Case('every view of camera %d sent' % camera, b''.join(pose(v, camera, GOOD) for v in range(64)), asked=(camera, 5), views=64, cameras=16, masks=masks)
    numbers = random.Random(256)
    for n in range(24):
        views, cameras = (64, 16) if n % 4 == 0 else (numbers.randint(1, 64), numbers.randint(1, 16))
        masks = [numbers.getrandbits(views) & numbers.getrandbits(views) if numbers.random() < 0.3 else numbers.getrandbits(views) for _ in range(cameras)]
        record = {'views': views, 'cameras': cameras, 'reference': numbers.randrange(cameras), 'masks': masks}
        stream = b''
        for _ in range(numbers.randint(5, 40)):
            v, c = numbers.randrange(views), numbers.randrange(cameras)
            stream += pose(v, c, GOOD) if numbers.random() < 0.5 else withdraw(v, c)
        asked = (numbers.randrange(cameras), numbers.randrange(cameras))
        yield Case('poses sent and taken back of drawn record %d' % n, stream, asked=asked, **record)
        place = (numbers.randrange(16), numbers.randrange(16))
        yield Case('drawn record %d with a false entry' % n, stream, asked=asked, shared=altered(masks, {place: numbers.choice([more, fewer])}), **record)


# ---- rigs

def rig_of(cells, views, cameras, reference=0, numbers=lambda v, c: GOOD):
    """A stream that names the cells, (view, camera) each, and then has them solved."""
    return size(views, cameras, reference) + b''.join(pose(v, c, numbers(v, c)) for v, c in cells) + SOLVE


def numbered(view, camera):
    """A pose that differs from cell to cell, of whole and half numbers."""
    return (view + 0.5, camera - 1.0, 2.0, 0.5, -0.5, 0.5 if view % 2 else -0.5, 0.5 if camera % 2 else -0.5)


def rig_cases():
    yield Case('two cameras never together', rig_of([(0, 0), (1, 1)], 2, 2))
    yield Case('cameras without a chain go before an empty view', rig_of([(0, 0), (1, 1)], 3, 2))
    yield Case('cameras 1, 3 and 15 without a chain', rig_of([(0, c) for c in range(16) if c not in (1, 3, 15)], 1, 16))
    yield Case('no poses at all', rig_of([], 1, 2))
    yield Case('one camera without poses', rig_of([], 1, 1))
    yield Case('the lowest empty view', rig_of([(0, 0), (0, 1), (2, 0)], 5, 2))
    one_each = [(0, 0), (0, 1), (1, 0), (1, 2), (2, 3), (2, 1), (3, 3), (3, 2)]
    yield Case('the same number of views: the lowest parent', rig_of(one_each, 4, 4, 0, numbered))
    yield Case('more views: the parent with most', rig_of(one_each + [(4, 3), (4, 2)], 5, 4, 0, numbered))
    forty = [(0, 0), (0, 3), (1, 0), (1, 1)] + [(v, c) for v in range(2, 42) for c in (1, 3)] + [(42, 0), (42, 2)]
    yield Case('the nearest parent goes before most views', rig_of(forty, 43, 4, 0, numbered))
    path = [(v, c) for v in range(15) for c in (v, v + 1)]
    yield Case('sixteen cameras in a row from the first', rig_of(path, 15, 16, 0, numbered))
    yield Case('sixteen cameras in a row from the last', rig_of(path, 15, 16, 15, numbered))
    yield Case('sixteen cameras in a row from the middle', rig_of(path, 15, 16, 7, numbered))
    yield Case('solved twice', rig_of([(0, 0)], 1, 1) + SOLVE)
    yield Case('poses after a solved rig', rig_of([(0, 0), (0, 1), (1, 1)], 2, 2, 0, numbered) + pose(1, 0, GOOD) + pose(0, 0, GOOD) + SOLVE)
    turn = math.sqrt(0.5)
    for label, rotations in [
        ('a rotation and its negation', [(0.0, 0.0, 0.0, 1.0), (0.0, 0.0, 0.0, -1.0)]),
        ('a dot product of 0 is not turned', [(1.0, 0.0, 0.0, 0.0), (0.0, 1.0, 0.0, 0.0)]),
        ('rotations that cancel', [(0.0, 0.0, 1.0, 0.0), (0.0, 0.0, 0.0, 1.0), (0.0, 0.0, 1.0, -1.0)]),
        ('a zero rotation', [(0.0, 0.0, 0.0, 0.0)]),
        ('rotations that are no unit quaternions', [(3.0, 0.0, 4.0, 0.0), (0.0, 0.1, 0.2, 0.3)]),
        ('a rotation too small for its squared norm', [(1e-170, 0.0, 0.0, 0.0), (0.0, 0.0, 0.0, 1e-170)]),
        ('a quarter turn', [(turn, 0.0, 0.0, turn), (0.0, turn, 0.0, -turn)]),
    ]:
        numbers = lambda v, c: (1.0, 2.0, 3.0) + (rotations[v] if c == 1 else (0.0, 0.0, 0.0, 1.0))
        yield Case(label, rig_of([(v, c) for v in range(len(rotations)) for c in (0, 1)], len(rotations), 2, 0, numbers))
    huge = lambda v, c: (1e308, -1e308, 1e308, 1e160, 1e160, 1e160, 1e160) if c else GOOD
    yield Case('an overflow travels on', rig_of([(0, 0), (0, 1), (1, 0), (1, 1)], 2, 2, 0, huge))
    full = [(v, c) for v in range(64) for c in range(16)]
    yield Case('64 views of 16 cameras', rig_of(full, 64, 16, 15, drawn(random.Random(64))))


def drawn(numbers):
    return lambda v, c: [numbers.uniform(-1.0, 1.0) for _ in range(7)]


def drawn_cases():
    """Grids drawn at random: many are solved, some are refused with 8 or 9."""
    numbers = random.Random(16)
    for n in range(24):
        views, cameras = numbers.randint(1, 7), numbers.randint(1, 6)
        cells = [(v, c) for v in range(views) for c in range(cameras) if numbers.random() < 0.6]
        numbers.shuffle(cells)
        yield Case('a rig drawn at random, number %d' % n, rig_of(cells, views, cameras, numbers.randrange(cameras), drawn(numbers)))


def drawn_withdrawal_cases():
    """Full grids drawn at random, of which poses are taken back and some sent again, with Solve after each."""
    numbers = random.Random(24)
    for n in range(16):
        views, cameras = numbers.randint(1, 5), numbers.randint(1, 4)
        cells = [(v, c) for v in range(views) for c in range(cameras)]
        stream = rig_of(cells, views, cameras, numbers.randrange(cameras), drawn(numbers))
        for _ in range(numbers.randint(2, 8)):
            v, c = numbers.choice(cells)
            stream += withdraw(v, c) + SOLVE
            if numbers.random() < 0.5:
                stream += pose(v, c, drawn(numbers)(v, c)) + SOLVE
        yield Case('poses taken back at random, number %d' % n, stream)


def cases():
    groups = (size_cases, stream_cases, record_cases, pose_cases, rig_cases, drawn_cases, withdraw_cases, sent_again_cases, drawn_withdrawal_cases, summary_cases, query_cases, kept_cases)
    every = (case for group in groups for case in group())
    for n, case in enumerate(every):
        # Two of six cameras in turn: of small rigs some are outside.
        case.asked = case.asked or (n % 6, n // 6 % 6)
        yield case
