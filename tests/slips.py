"""Which rows notice which slip: every exact row is computed in Python's IEEE doubles, under document 01's reading and under each slip.

The rows are those of crates/arithmetic/specs/Rows.antt, crates/mean/specs/Rows.antt, and GridRow.antt and OtherGrids.antt of
crates/claims_cases/specs. It fails unless the right reading gives exactly the numbers that stand there, and each of the slips listed here gives
another number in at least one row. It prints, for each of them, the rows that notice it; a slip of several variants is noticed where each of
them is. Run it from anywhere: python3 tests/slips.py.

No row can tell, since the doubles are the same for all inputs: 2 × t from t + t; a + b from b + a and a × b from b × a, and so the dot product
with the first from the first's with it; a - b from a + (-b); x × -1 from the negation of x; a squared norm equal to 0 from a root of it equal
to 0, or from one that is 0 or below; a second normalising that is left out where the squared norm is 1; a view's pose as it came from the
reference's identity times it. Rows are few, and so are the slips listed: a slip at numbers that no row has is not noticed.
"""

import itertools
import math
import os
import re
import sys
from fractions import Fraction

ROOT = os.path.join(os.path.dirname(os.path.abspath(__file__)), '..')
sys.path.insert(0, os.path.join(ROOT, 'samples'))
from oracle import IDENTITY, bits, divide, root  # noqa: E402

LEFT_TO_RIGHT = (((0, 1), 2), 3)
NUMBERS = 'ijkw'
AXES = 'xyz'


# ---- orders of a sum

def total(order, terms):
    """The sum of the terms in an order: a place among them, or two orders whose sums are added."""
    return terms[order] if isinstance(order, int) else total(order[0], terms) + total(order[1], terms)


def orders(places):
    """Every order of summing, but for the two sides of an addition, which can be swapped."""
    if len(places) == 1:
        return list(places)
    first, rest = places[0], places[1:]
    found = []
    for size in range(len(rest)):
        for some in itertools.combinations(rest, size):
            others = tuple(place for place in rest if place not in some)
            found += itertools.product(orders((first,) + some), orders(others))
    return found


def unordered(order):
    return order if isinstance(order, int) else frozenset(map(unordered, order))


def other_orders(right, count):
    return [order for order in orders(tuple(range(count))) if unordered(order) != unordered(right)]


# ---- document 01's reading, each step of which a slip can change

class Reading:
    # Signs of the quaternion product's terms, number by number, and the orders in which they and a dot product are summed.
    signs = {'i': (1, 1, 1, -1), 'j': (1, -1, 1, 1), 'k': (1, 1, -1, 1), 'w': (1, -1, -1, -1)}
    product_orders = {number: LEFT_TO_RIGHT for number in NUMBERS}
    dot_order = ((0, 2), (1, 3))
    cross_signs = {axis: (1, -1) for axis in AXES}
    # The pose product's translation: the left translation, w × t, u × t and v.
    shift_orders = {axis: (0, ((1, 2), 3)) for axis in AXES}
    # The inverse's: w × t, u × t and v.
    turn_orders = {axis: ((0, 1), 2) for axis in AXES}

    def negative(self, a):
        return -a

    # -- rotations and vectors

    def terms(self, p, q):
        (i, j, k, w), (a, b, c, d) = p, q
        return {
            'i': (w * a, i * d, j * c, k * b),
            'j': (w * b, i * c, j * d, k * a),
            'k': (w * c, i * b, j * a, k * d),
            'w': (w * d, i * a, j * b, k * c),
        }

    def multiply(self, p, q):
        terms = self.terms(p, q)
        return tuple(
            total(self.product_orders[n], [s * t for s, t in zip(self.signs[n], terms[n])]) for n in NUMBERS)

    def conjugate(self, q):
        return tuple(map(self.negative, q[:3])) + q[3:]

    def minus(self, a, b, c, d):
        return a * b - c * d

    def cross(self, a, b):
        pairs = ((a[1], b[2], a[2], b[1]), (a[2], b[0], a[0], b[2]), (a[0], b[1], a[1], b[0]))
        return tuple(self.minus(s * p, q, -t * r, z) for (p, q, r, z), (s, t) in zip(pairs, (self.cross_signs[n] for n in AXES)))

    def turning(self, q, v):
        """w × t, u × t and v, axis by axis."""
        u, w = q[:3], self.turning_w(q)
        t = tuple(2.0 * c for c in self.cross(u, v))
        ut = self.cross(u, t)
        return [(w * t[n], ut[n], v[n]) for n in range(3)]

    def turning_w(self, q):
        return q[3]

    def rotate(self, q, v):
        return tuple(total(self.turn_orders[n], terms) for n, terms in zip(AXES, self.turning(q, v)))

    def dot(self, p, q):
        return total(self.dot_order, [a * b for a, b in zip(p, q)])

    # -- poses

    def product(self, p, q):
        shift = tuple(total(self.shift_orders[n], (a,) + terms) for n, a, terms in zip(AXES, p, self.turning(p[3:], q[:3])))
        return shift + self.multiply(p[3:], q[3:])

    def inverse(self, p):
        back = self.conjugate(p[3:])
        return self.rotate(back, tuple(map(self.negative, p[:3]))) + back

    # -- averages

    def sign(self, first, before, running, q):
        """The first rotation, those before this one, their sum so far, and this one."""
        return -1.0 if self.dot(first, q) < 0.0 else 1.0

    start = 0.0

    def taken(self, poses):
        """The poses in the order in which they are added."""
        return poses

    def sums(self, poses):
        first = poses[0][3:]
        shift, turn, before = (self.start,) * 3, (self.start,) * 4, []
        for pose in self.taken(poses):
            shift = tuple(a + b for a, b in zip(shift, pose))
            sign = self.sign(first, before, turn, pose[3:])
            turn = tuple(a + b * sign for a, b in zip(turn, pose[3:]))
            before.append(tuple(b * sign for b in pose[3:]))
        return shift, turn

    def over(self, numbers, count):
        return tuple(divide(c, count) for c in numbers)

    def norm(self, q):
        return root(self.dot(q, q))

    def normalize(self, q):
        norm = self.norm(q)
        return tuple(divide(c, norm) for c in q)

    def is_zero(self, turn, count):
        return self.dot(turn, turn) == 0.0

    def direction(self, turn, count):
        return self.normalize(self.normalize(self.over(turn, count)))

    def mean_translation(self, poses, shift):
        return self.over(shift, float(len(poses)))

    def average(self, poses):
        shift, turn = self.sums(poses)
        count = float(len(poses))
        rotation = (0.0, 0.0, 0.0, 1.0) if self.is_zero(turn, count) else self.direction(turn, count)
        return self.mean_translation(poses, shift) + rotation

    # -- the estimate

    def candidate(self, parent, camera):
        return self.product(parent, self.inverse(camera))

    def link(self, candidates):
        return self.average(candidates)

    def placed(self, rig, link):
        return self.product(rig, link)

    def seen(self, rig, pose):
        return self.product(rig, pose)

    def ascending(self, views):
        return views

    def cameras_of(self, row):
        return [c for c, pose in enumerate(row) if pose is not None]

    def estimate(self, views, reference):
        cameras = range(len(views[0]))
        shared = lambda a, b: [row for row in views if row[a] is not None and row[b] is not None]  # noqa: E731
        parent, links, rig, layer = {reference: reference}, {reference: 0}, {reference: IDENTITY}, [reference]
        while layer:
            found = {}
            for c in cameras:
                near = [p for p in sorted(layer) if shared(c, p)]
                if c not in parent and near:
                    found[c] = max(near, key=lambda p: (len(shared(c, p)), -p))
            for c, p in found.items():
                parent[c], links[c] = p, links[p] + 1
                rows = self.ascending(shared(c, p))
                rig[c] = self.placed(rig[p], self.link([self.candidate(row[p], row[c]) for row in rows]))
            layer = list(found)
        targets = [self.average([self.seen(rig[c], row[c]) for c in self.cameras_of(row)]) for row in views]
        return [n for c in cameras for n in (parent[c], links[c])], [rig[c] for c in cameras] + targets


# ---- the rows, named as in the files

A = (.4, 1., .9, -.8, -.2, .5, -.3)
B = (.3, .3, -.9, -.8, .1, -.9, -.8)
C = (.2, .4, .1, -.9, .3, -.9, .3)
D = (-.8, -.4, .6, -.8, .8, -.8, .9)
E = (-.2, -.6, -.4, -1., .4, .1, -.9)
F = (.8, .8, .3, -1., -.9, -.3, -.5)


def power(n):
    return math.ldexp(1.0, n)


def turned(pose):
    """The same rotation by the other quaternion."""
    return pose[:3] + tuple(-c for c in pose[3:])


POSES = {
    'A': A, 'B': B, 'C': C, 'D': D, 'E': E, 'F': F,
    # Twice its crossed products overflows.
    'huge': (0., 0., 0., 1., 0., 0., .25),
    'far': (0., 0., power(1023), 0., 0., 0., 1.),
    # A translation of the two least doubles, whose crossed products are rounded before they are doubled.
    'slight': (0., 0., 0., .75, 0., 0., .75),
    'near': (0., power(-1074), 2 * power(-1074), 0., 0., 0., 1.),
    'zeros': (0., -0., 0., 0., -0., 0., -0.),
    # A dot product of infinity and minus infinity.
    'long': (0., 0., 0., power(512), 0., power(512), 0.),
    'across': (0., 0., 0., power(512), 0., -power(512), 0.),
    'still': (0., 0., 0., 0., 0., 0., 0.),
    # A dot product of 0.
    'about_i': (0., 0., 0., 1., 0., 0., 0.),
    'about_j': (0., 0., 0., 0., 1., 0., 0.),
    'minus_zeros': (-0., -0., -0., -0., 1., -0., -0.),
    # Its squared norm rounds to 0.
    'tiny': (1., 2., 3., power(-600), 0., 0., 0.),
    # The squared norm of two of them does not, but that of their half does.
    'halved': (0., 0., 0., power(-538), 0., 0., 0.),
    # Far below any tolerance, yet a rotation.
    'short': (0., 0., 0., 3 * power(-100), 0., 4 * power(-100), 0.),
    'overflown': (math.inf, 0., 0., math.nan, 0., 0., 1.),
    # Negations of y and j that are not 0 - x.
    'other_zeros': (0., 0., -0., 0., 0., -0., -0.),
    # After `still`, four terms of -0 for i, for j, for k, for w.
    'zeros_i': (0., 0., 0., -0., 0., -0., -0.),
    'zeros_j': (0., 0., 0., -0., -0., 0., -0.),
    'zeros_k': (0., 0., 0., 0., -0., -0., -0.),
    'zeros_w': (0., 0., 0., 0., 0., 0., -0.),
    # Its dot product with about_i is just below 0.
    'just_past': (0., 0., 0., -power(-60), 1., 0., 0.),
    # A dot product of -1 with the first where i and k are added, and j and w: in every other order one of the two has 0. That of the last is 0, by rounding alone.
    'ones': (0., 0., 0., 1., 1., 1., 1.),
    'paired': (0., 0., 0., power(60), -1., -power(60), 0.),
    'other_paired': (0., 0., 0., -1., power(60), 0., -power(60)),
    'cancelled': (0., 0., 0., power(60), -power(60), -1., 0.),
    # A dot product of -0.
    'tiny_i': (0., 0., 0., power(-600), 0., 0., 0.),
    'less_minus_zeros': (0., 0., 0., -power(-500), -0., -0., -0.),
    # A dot product that rounds to 0, unless they are normalised first.
    'small_i': (0., 0., 0., power(-520), -0., 0., 0.),
    'small_back': (0., 0., 0., -power(-560), -0., 1., 0.),
    'twice_back': (0., 0., 0., -2., 0., 0., 0.),
    'turned_c': turned(C),
    'turned_f': turned(F),
    'empty': (math.nan,) * 7,
    'far_right': (power(1023), 0., 0., 0., 0., 0., 1.),
    'far_left': (-power(1023), 0., 0., 0., 0., 0., 1.),
}


# Each whole rig: its views, its reference, and parent and links of each camera, worked out by hand.
GRIDS = {
    # Camera 1 meets camera 0 alone, and that one the reference.
    'grid': ([
        [A, None, B],
        [POSES['turned_c'], None, D],
        [B, E, None],
        [D, POSES['turned_f'], None],
    ], 2, [2, 1, 0, 2, 2, 0]),
    # The link overflows.
    'overflow': ([[POSES['far_right'], POSES['far_left']]], 0, [0, 0, 0, 1]),
    # A link of one view.
    'single': ([[A, B], [C, None]], 0, [0, 0, 0, 1]),
    # Camera 2 is three links from the reference; camera 1 meets the reference in three views, and view 0 has three cameras.
    'deep': ([
        [A, B, None, C, None],
        [None, D, None, E, None],
        [None, F, None, A, None],
        [None, B, None, None, C],
        [None, None, D, None, E],
    ], 3, [3, 1, 3, 1, 4, 3, 3, 0, 1, 2]),
}


def solved(reading):
    """The answers of the whole rigs."""
    found = {}
    for name, (views, reference, expected) in GRIDS.items():
        chains, transforms = reading.estimate(views, reference)
        assert chains == expected
        for n, pose in enumerate(transforms):
            cameras = len(views[0])
            found['%s_camera%d' % (name, n) if n < cameras else '%s_target%d' % (name, n - cameras)] = pose
    return found


def family(row):
    """The rig of which a row is a part, or the row."""
    return re.sub(r'^(%s)_(camera|target)[0-9]+$' % '|'.join(GRIDS), r'\1', row)


def rows(reading):
    p = POSES
    q = {name: pose[3:] for name, pose in p.items()}
    dots = [('A', 'B'), ('A', 'C'), ('E', 'F'), ('E', 'E')]
    return {
        'product_ab': reading.product(A, B),
        'product_ef': reading.product(E, F),
        'product_overflows': reading.product(p['huge'], p['far']),
        'product_underflows': reading.product(p['slight'], p['near']),
        'products_of_zeros': sum((reading.product(p['still'], p['zeros_' + n.lower()]) for n in 'IJKW'), ()),
        'inverse_c': reading.inverse(C),
        'inverse_of_zeros': reading.inverse(p['zeros']),
        'inverse_of_other_zeros': reading.inverse(p['other_zeros']),
        'dots': tuple(reading.dot(q[a], q[b]) for a, b in dots),
        'average_abcd': reading.average([A, B, C, D]),
        'average_dba': reading.average([D, B, A]),
        'average_of_minus_zeros': reading.average([p['minus_zeros']]),
        'average_at_zero_dot': reading.average([p['about_i'], p['about_j']]),
        'average_at_nan_dot': reading.average([p['long'], p['across'], p['still'], p['still']]),
        'average_of_tiny': reading.average([p['tiny']]),
        'average_halved': reading.average([p['halved'], p['halved']]),
        'average_of_short': reading.average([p['short']]),
        'average_of_overflown': reading.average([p['overflown']]),
        'average_just_below_zero_dot': reading.average([p['about_i'], p['just_past']]),
        'average_by_paired_dot': reading.average([p['ones'], p['paired']]),
        'average_by_other_paired_dot': reading.average([p['ones'], p['other_paired']]),
        'average_by_rounded_dot': reading.average([p['ones'], p['cancelled']]),
        'average_at_minus_zero_dot': reading.average([p['tiny_i'], p['less_minus_zeros']]),
        'average_at_underflown_dot': reading.average([p['small_i'], p['small_back']]),
        'average_after_still': reading.average([p['still'], p['about_i'], p['twice_back']]),
        'average_of_long': reading.average([p['long']]),
        'average_of_seven': reading.average([F, A, A, B, C, D, E]),
        **solved(reading),
    }


def written(numbers):
    return list(map(bits, numbers))


# ---- the slips, each by a name, with its variants

def slip(**changes):
    return type('Slip', (Reading,), changes)()


def changed(table, key, value):
    return {**table, key: value}


def fused(a, b, c, d):
    """a × b - c × d with the first product kept exact, as a fused operation has it."""
    second = c * d
    if not all(map(math.isfinite, (a, b, second))):
        return a * b - second
    exact = Fraction(a) * Fraction(b) - Fraction(second)
    return float(exact) if exact else a * b - second


def sandwich(self, p, v):
    """q v q* by two quaternion products."""
    return self.multiply(self.multiply(p, v + (0.0,)), self.conjugate(p))[:3]


def slips():
    R = Reading
    for n in NUMBERS:
        yield 'product: the sign of a term of ' + n, [
            slip(signs=changed(R.signs, n, tuple(-s if place == at else s for place, s in enumerate(R.signs[n])))) for at in range(4)]
        yield 'product: another order or bracketing for ' + n, [
            slip(product_orders=changed(R.product_orders, n, order)) for order in other_orders(LEFT_TO_RIGHT, 4)]
        yield 'product: summed from 0, ' + n, [slip(multiply=lambda s, p, q, at=NUMBERS.index(n): from_zero(s, p, q, [at]))]
    yield 'product: all four summed from 0', [slip(multiply=lambda s, p, q: from_zero(s, p, q, range(4)))]
    yield 'product: all four summed in pairs', [slip(product_orders={n: ((0, 1), (2, 3)) for n in NUMBERS})]
    yield 'product: all four summed from the right', [slip(product_orders={n: (0, (1, (2, 3))) for n in NUMBERS})]
    yield 'product: right times left', [slip(multiply=lambda s, p, q: R.multiply(s, q, p))]
    yield 'product: the right rotation conjugated', [slip(multiply=lambda s, p, q: R.multiply(s, p, s.conjugate(q)))]
    for n in AXES:
        yield 'cross: the sign of a term of ' + n, [
            slip(cross_signs=changed(R.cross_signs, n, signs)) for signs in ((-1, -1), (1, 1), (-1, 1))]
        yield 'pose product: left translation, w × t, u × t, v in another order, ' + n, [
            slip(shift_orders=changed(R.shift_orders, n, order)) for order in other_orders(R.shift_orders[n], 4)]
        yield 'rotate, in the inverse: u × t first, or v added first, ' + n, [
            slip(turn_orders=changed(R.turn_orders, n, order)) for order in other_orders(R.turn_orders[n], 3)]
    yield 'cross: multiplied and subtracted with one rounding', [slip(minus=lambda s, a, b, c, d: fused(a, b, c, d))]
    yield 'rotate: with -w', [slip(turning_w=lambda s, q: -q[3])]
    yield 'rotate: by the conjugate', [slip(turning=lambda s, q, v: R.turning(s, s.conjugate(q), v))]
    yield 'rotate: t not doubled', [slip(turning=lambda s, q, v: [(q[3] * t, c, x) for t, c, x in zip(
        s.cross(q[:3], v), s.cross(q[:3], s.cross(q[:3], v)), v)])]
    yield 'rotate: doubled after w × and u ×', [slip(turning=lambda s, q, v: [(2 * (q[3] * t), 2 * c, x) for t, c, x in zip(
        s.cross(q[:3], v), s.cross(q[:3], s.cross(q[:3], v)), v)])]
    yield 'rotate: u doubled before it is crossed', [slip(turning=lambda s, q, v: [(q[3] * t, c, x) for t, c, x in (
        lambda t: zip(t, s.cross(q[:3], t), v))(s.cross(tuple(2 * c for c in q[:3]), v))])]
    yield 'rotate: by q v q*', [slip(
        rotate=sandwich,
        product=lambda s, p, q: tuple(a + b for a, b in zip(p, sandwich(s, p[3:], q[:3]))) + s.multiply(p[3:], q[3:]))]
    yield 'pose product: by the right rotation', [slip(
        product=lambda s, p, q: R.product(s, p[:3] + q[3:], q)[:3] + s.multiply(p[3:], q[3:]))]
    yield 'pose product: the right translation added', [slip(product=lambda s, p, q: R.product(s, q[:3] + p[3:], q))]
    yield 'pose product: no translation added', [slip(product=lambda s, p, q: R.product(s, (0., 0., 0.) + p[3:], q))]
    yield 'inverse: conjugate left out', [slip(inverse=lambda s, p: s.rotate(p[3:], tuple(-c for c in p[:3])) + s.conjugate(p[3:]))]
    yield 'inverse: the rotation kept', [slip(inverse=lambda s, p: R.inverse(s, p)[:3] + p[3:])]
    yield 'inverse: negation left out', [slip(inverse=lambda s, p: s.rotate(s.conjugate(p[3:]), p[:3]) + s.conjugate(p[3:]))]
    yield 'inverse: negated after it is rotated', [slip(
        inverse=lambda s, p: tuple(-c for c in s.rotate(s.conjugate(p[3:]), p[:3])) + s.conjugate(p[3:]))]
    yield 'inverse: 0 - x for the negation of x', [slip(negative=lambda s, a: 0.0 - a)]
    yield 'inverse: 0 - x in the conjugate alone', [slip(conjugate=lambda s, q: tuple(0.0 - c for c in q[:3]) + q[3:])]
    yield 'inverse: 0 - x in the translation alone', [slip(
        inverse=lambda s, p: s.rotate(s.conjugate(p[3:]), tuple(0.0 - c for c in p[:3])) + s.conjugate(p[3:]))]
    yield 'inverse: 0 - x in one number of the conjugate', [
        slip(conjugate=lambda s, q, at=at: tuple(0.0 - c if n == at else -c for n, c in enumerate(q[:3])) + q[3:]) for at in range(3)]
    yield 'inverse: 0 - x in one number of the translation', [
        slip(inverse=lambda s, p, at=at: (lambda back: s.rotate(back, tuple(
            0.0 - c if n == at else -c for n, c in enumerate(p[:3]))) + back)(s.conjugate(p[3:]))) for at in range(3)]
    yield 'inverse: w negated too', [slip(conjugate=lambda s, q: tuple(-c for c in q))]
    yield 'inverse: divided by the squared norm', [slip(
        conjugate=lambda s, q: tuple(divide(c, s.dot(q, q)) for c in R.conjugate(s, q)))]
    yield 'dot: another order or bracketing', [slip(dot_order=order) for order in other_orders(R.dot_order, 4)]
    yield 'dot: three of four', [slip(dot=lambda s, p, q, left=left: R.dot(s, p[:left] + (0.,) + p[left + 1:], q)) for left in range(4)]

    yield 'average: no hemisphere', [slip(sign=lambda s, first, before, running, q: 1.0)]
    yield 'average: the hemisphere of the one before, as it came', [slip(
        sums=lambda s, poses: by_previous(s, poses))]
    yield 'average: the hemisphere of the one before, as it was added', [slip(
        sign=lambda s, first, before, running, q: -1.0 if before and s.dot(before[-1], q) < 0.0 else 1.0)]
    yield 'average: the hemisphere of the sum so far', [slip(
        sign=lambda s, first, before, running, q: -1.0 if s.dot(running, q) < 0.0 else 1.0)]
    yield 'average: the hemisphere of the last', [slip(
        sums=lambda s, poses: type('Last', (type(s),), {'sign': lambda t, first, before, running, q: R.sign(t, poses[-1][3:], before, running, q), 'sums': R.sums})().sums(poses))]
    yield 'average: the hemisphere of the identity', [slip(sign=lambda s, first, before, running, q: -1.0 if q[3] < 0.0 else 1.0)]
    yield 'average: turned over at a dot product of 0', [slip(
        sign=lambda s, first, before, running, q: -1.0 if s.dot(first, q) <= 0.0 else 1.0)]
    yield 'average: turned over at a NaN', [slip(
        sign=lambda s, first, before, running, q: 1.0 if s.dot(first, q) >= 0.0 else -1.0)]
    yield 'average: turned over below a tolerance alone', [
        hemisphere(lambda s, first, q, least=least: s.dot(first, q) < -least) for least in (.0625, 1e-12, power(-52))]
    yield 'average: the hemisphere by a dot product in another order or bracketing', [
        hemisphere(lambda s, first, q, order=order: slip(dot_order=order).dot(first, q) < 0.0) for order in other_orders(R.dot_order, 4)]
    yield 'average: the hemisphere by w of the first × the conjugate', [
        hemisphere(lambda s, first, q: s.multiply(first, s.conjugate(q))[3] < 0.0)]
    yield 'average: the hemisphere by the exact dot product', [hemisphere(lambda s, first, q: exact_dot(s, first, q) < 0)]
    yield 'average: the hemisphere by the sign bit of the dot product', [
        hemisphere(lambda s, first, q: math.copysign(1.0, s.dot(first, q)) < 0.0)]
    yield 'average: the hemisphere by normalised rotations, or by the first normalised', [
        hemisphere(lambda s, first, q: s.dot(s.normalize(first), s.normalize(q)) < 0.0),
        hemisphere(lambda s, first, q: s.dot(s.normalize(first), q) < 0.0)]
    yield 'average: the hemisphere by the lesser distance', [hemisphere(lambda s, first, q: s.dot(
        *[tuple(a - b for a, b in zip(first, q))] * 2) > s.dot(*[tuple(a + b for a, b in zip(first, q))] * 2))]
    yield 'average: the hemisphere of the first rotation that is not zero', [slip(sums=lambda s, poses: by_first(s, poses, next(
        (p[3:] for p in poses if any(p[3:])), poses[0][3:])))]
    yield 'average: turned over where it should not be', [slip(
        sign=lambda s, first, before, running, q: -R.sign(s, first, before, running, q))]
    yield 'average: translations turned over too', [slip(sums=lambda s, poses: R.sums(s, [
        p if R.sign(s, poses[0][3:], [], None, p[3:]) > 0 else tuple(-c for c in p[:3]) + p[3:] for p in poses]))]
    yield 'average: summed from the last', [slip(taken=lambda s, poses: poses[::-1])]
    yield 'average: translations alone summed from the last', [slip(
        sums=lambda s, poses: (R.sums(s, poses[::-1])[0], R.sums(s, poses)[1]))]
    yield 'average: rotations alone summed from the last', [slip(
        sums=lambda s, poses: (R.sums(s, poses)[0], slip(taken=lambda t, poses: poses[::-1]).sums(poses)[1]))]
    yield 'average: sums from -0, or from the first pose', [slip(start=-0.0)]
    yield 'average: sums of rotations alone from -0', [slip(
        sums=lambda s, poses: (R.sums(s, poses)[0], slip(start=-0.0).sums(poses)[1]))]
    yield 'average: sums of translations alone from -0', [slip(
        sums=lambda s, poses: (slip(start=-0.0).sums(poses)[0], R.sums(s, poses)[1]))]
    yield 'average: the sum of one number alone from -0', [slip(sums=lambda s, poses, at=at: one_number(
        R.sums(s, poses), slip(start=-0.0).sums(poses), at)) for at in range(7)]
    yield 'average: the first pose skipped', [slip(taken=lambda s, poses: poses[1:])]
    yield 'average: the last pose skipped', [slip(taken=lambda s, poses: poses[:-1])]
    reciprocal = lambda s, numbers, count: tuple(c * divide(1.0, count) for c in numbers)  # noqa: E731
    yield 'average: multiplied by the reciprocal of the count', [slip(over=reciprocal)]
    yield 'average: translations alone by the reciprocal', [slip(
        mean_translation=lambda s, poses, shift: reciprocal(s, shift, float(len(poses))))]
    yield 'average: rotations alone by the reciprocal', [slip(
        direction=lambda s, turn, count: s.normalize(s.normalize(reciprocal(s, turn, count))))]
    yield 'average: one number alone by the reciprocal', [
        slip(mean_translation=lambda s, poses, shift, at=at: tuple(
            (reciprocal if n == at else R.over)(s, shift, float(len(poses)))[n] for n in range(3))) for at in range(3)] + [
        slip(direction=lambda s, turn, count, at=at: s.normalize(s.normalize(tuple(
            (reciprocal if n == at else R.over)(s, turn, count)[n] for n in range(4))))) for at in range(4)]
    yield 'average: no more than four poses, or a count of four at most', [
        slip(taken=lambda s, poses: poses[:4]), slip(over=lambda s, numbers, count: R.over(s, numbers, min(count, 4.0)))]
    yield 'average: each divided before it is added', [slip(
        mean_translation=lambda s, poses, shift: R.sums(s, [R.over(s, p, float(len(poses))) for p in poses])[0])]
    yield 'average: translations not divided', [slip(mean_translation=lambda s, poses, shift: shift)]
    yield 'average: translations divided by one fewer', [slip(
        mean_translation=lambda s, poses, shift: R.over(s, shift, float(len(poses) - 1)))]
    yield 'average: rotations not divided', [slip(direction=lambda s, turn, count: s.normalize(s.normalize(turn)))]
    yield 'average: rotations divided after they are normalised', [slip(
        direction=lambda s, turn, count: s.normalize(s.over(s.normalize(turn), count)))]
    yield 'average: normalised once', [slip(direction=lambda s, turn, count: s.normalize(s.over(turn, count)))]
    yield 'average: normalised three times', [slip(direction=lambda s, turn, count: s.normalize(R.direction(s, turn, count)))]
    yield 'average: not normalised', [slip(direction=lambda s, turn, count: s.over(turn, count))]
    yield 'average: normalised by the reciprocal of the root', [slip(
        normalize=lambda s, q: tuple(c * divide(1.0, s.norm(q)) for c in q))]
    yield 'average: divided by the squared norm, no root', [slip(norm=lambda s, q: s.dot(q, q))]
    yield 'average: the norm scaled where its square overflows', [slip(norm=lambda s, q: scaled_norm(s, q))]
    yield 'average: no test for zero', [slip(is_zero=lambda s, turn, count: False)]
    yield 'average: tested for zero after it is divided', [slip(
        is_zero=lambda s, turn, count: R.is_zero(s, s.over(turn, count), count))]
    yield 'average: tested for zero number by number', [slip(is_zero=lambda s, turn, count: all(c == 0.0 for c in turn))]
    yield 'average: tested for zero pose by pose', [slip(sums=lambda s, poses: R.sums(s, [
        p[:3] + (0., 0., 0., 1.) if s.dot(p[3:], p[3:]) == 0.0 else p for p in poses]))]
    yield 'average: zero below a tolerance', [slip(
        is_zero=lambda s, turn, count, least=least: s.dot(turn, turn) < least) for least in (1e-10, 2.3e-16, 1e-30)]
    yield 'average: the identity for a NaN', [slip(is_zero=lambda s, turn, count: not s.dot(turn, turn) > 0.0)]
    yield 'average: the zero sum kept, or the first rotation', [
        slip(average=lambda s, poses, kept=kept: R.average(s, poses) if not s.is_zero(s.sums(poses)[1], 1.0) else
             s.mean_translation(poses, s.sums(poses)[0]) + kept(poses)) for kept in (lambda poses: (0., 0., 0., 0.), lambda poses: poses[0][3:])]
    yield 'average: the identity for the translation too', [slip(average=lambda s, poses: R.average(s, poses) if not s.is_zero(
        s.sums(poses)[1], 1.0) else IDENTITY)]

    yield 'link: the inverse of a link averaged', [slip(
        candidate=lambda s, parent, camera: s.product(camera, s.inverse(parent)), link=lambda s, links: s.inverse(s.average(links)))]
    yield 'link: camera × inverse of parent', [slip(candidate=lambda s, parent, camera: s.product(camera, s.inverse(parent)))]
    yield 'link: inverse of parent × camera', [slip(candidate=lambda s, parent, camera: s.product(s.inverse(parent), camera))]
    yield 'link: inverse of camera × parent', [slip(candidate=lambda s, parent, camera: s.product(s.inverse(camera), parent))]
    yield 'link: views descending', [slip(ascending=lambda s, views: views[::-1])]
    yield 'link: the first shared view alone', [slip(ascending=lambda s, views: views[:1])]
    yield 'link: the first two shared views alone', [slip(ascending=lambda s, views: views[:2])]
    yield 'link: one candidate taken as it is', [slip(link=lambda s, candidates: candidates[0] if len(candidates) == 1 else s.average(candidates))]
    yield 'link: the identity, where it is not finite', [slip(
        link=lambda s, candidates: (lambda mean: mean if all(map(math.isfinite, mean)) else IDENTITY)(s.average(candidates)))]
    yield "camera: the reference's identity not multiplied", [slip(
        placed=lambda s, rig, link: link if rig == IDENTITY else s.product(rig, link))]
    yield 'camera: the links multiplied from the last', [slip(placed=from_the_last({}))]
    yield 'camera: link × parent', [slip(placed=lambda s, rig, link: s.product(link, rig))]
    yield 'camera: the link alone', [slip(placed=lambda s, rig, link: link)]
    yield 'target: target × rig pose', [slip(seen=lambda s, rig, pose: s.product(pose, rig))]
    yield 'target: inverse of the rig pose × target', [slip(seen=lambda s, rig, pose: s.product(s.inverse(rig), pose))]
    yield 'target: cameras descending', [slip(cameras_of=lambda s, row: R.cameras_of(s, row)[::-1])]
    yield 'target: the two lowest cameras alone', [slip(cameras_of=lambda s, row: R.cameras_of(s, row)[:2])]
    yield 'target: the lowest camera alone', [slip(cameras_of=lambda s, row: R.cameras_of(s, row)[:1])]


def from_zero(reading, p, q, numbers):
    """The product, some of whose numbers are summed from 0."""
    terms = reading.terms(p, q)
    return tuple(
        sum((s * t for s, t in zip(reading.signs[n], terms[n])), 0.0) if at in numbers else c
        for at, (n, c) in enumerate(zip(NUMBERS, Reading.multiply(reading, p, q))))


def hemisphere(turns):
    """Rotations are turned over by another test of the first and of each."""
    return slip(sign=lambda s, first, before, running, q: -1.0 if turns(s, first, q) else 1.0)


def exact_dot(reading, p, q):
    if not all(map(math.isfinite, p + q)):
        return reading.dot(p, q)
    return sum(Fraction(a) * Fraction(b) for a, b in zip(p, q))


def by_first(reading, poses, first):
    """Sums in the hemisphere of a rotation that is given."""
    shift, turn = (0.0,) * 3, (0.0,) * 4
    for pose in poses:
        sign = reading.sign(first, [], None, pose[3:])
        shift = tuple(a + b for a, b in zip(shift, pose))
        turn = tuple(a + b * sign for a, b in zip(turn, pose[3:]))
    return shift, turn


def one_number(sums, others, at):
    """Sums of which one number is another's."""
    numbers = [b if n == at else a for n, (a, b) in enumerate(zip(sums[0] + sums[1], others[0] + others[1]))]
    return tuple(numbers[:3]), tuple(numbers[3:])


def scaled_norm(reading, q):
    if math.isinf(reading.dot(q, q)) and all(map(math.isfinite, q)):
        return power(300) * root(reading.dot(*[tuple(c * power(-300) for c in q)] * 2))
    return root(reading.dot(q, q))


def from_the_last(known):
    """A camera's link is multiplied by its parent's before both are by the pose above; `known` has these by the parent's pose."""
    def placed(reading, rig, link):
        above, last = known.get(rig, (rig, None))
        pose = reading.product(above, reading.product(last, link) if last else link)
        known[pose] = rig, link
        return pose
    return placed


def by_previous(reading, poses):
    """The hemisphere of the pose before, whose rotation is taken as it came."""
    previous = dict(zip(map(id, poses[1:]), poses))
    shift, turn = (0.0,) * 3, (0.0,) * 4
    for pose in poses:
        sign = -1.0 if id(pose) in previous and reading.dot(previous[id(pose)][3:], pose[3:]) < 0.0 else 1.0
        shift = tuple(a + b for a, b in zip(shift, pose))
        turn = tuple(a + b * sign for a, b in zip(turn, pose[3:]))
    return shift, turn


# ---- the numbers that stand in the files

FILES = ['crates/arithmetic/specs/Rows.antt', 'crates/mean/specs/Rows.antt', 'crates/claims_cases/specs/GridRow.antt',
         'crates/claims_cases/specs/OtherGrids.antt']


def recorded():
    """The 16-digit numbers of each definition, by its name."""
    found = {}
    for name in FILES:
        with open(os.path.join(ROOT, name), encoding='utf-8') as file:
            for part in file.read().split('\n\n'):
                head = re.search(r'^([A-Za-z]\w*) =', part, re.M)
                numbers = [n.replace('_', '') for n in re.findall(r'0x([0-9a-f_]+)', part)]
                if head and numbers:
                    found[head[1]] = numbers
    return found


def main():
    right = {name: written(numbers) for name, numbers in rows(Reading()).items()}
    said = {**{name: written(pose) for name, pose in POSES.items()}, **right}
    there, wrong = recorded(), 0
    for name in sorted(said.keys() | there.keys()):
        if said.get(name) != there.get(name):
            print('slips: %s is %s, and in the files %s' % (name, said.get(name), there.get(name)))
            wrong += 1
    count = 0
    for name, variants in slips():
        noticing, missed = set(), 0
        for variant in variants:
            by = [row for row, numbers in rows(variant).items() if written(numbers) != right[row]]
            noticing.update(map(family, by))
            missed += not by
        count += len(variants)
        wrong += missed
        several = ' (%d variants)' % len(variants) if len(variants) > 1 else ''
        print('%s%s: %s' % (name, several, 'NOT NOTICED, %d of them' % missed if missed else ', '.join(row for row in dict.fromkeys(map(family, right)) if row in noticing)))
    print('slips: %d slips, %s' % (count, '%d things are wrong' % wrong if wrong else 'each noticed by a row, and the rows are those of the files'))
    return wrong > 0


if __name__ == '__main__':
    sys.exit(main())
