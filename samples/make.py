#!/usr/bin/env python3
"""Makes the sample streams beside this file, and what the programs must print, by `oracle.py`.

    python3 samples/make.py

writes samples/*.stream, samples/*.frames and samples/*.listing, the tables of samples/pairs.tables, and the files stdin and stdout of crates/rig, crates/frames and
crates/test_session.

A stream is a file for the program's standard input:  rig < samples/five_cameras.stream
Packed frames are made into the Pose commands of one:  frames < samples/arm.frames
"""

import math
import os
import random

import cases
import oracle
from commands import SOLVE, frame, pose, size, withdraw

HERE = os.path.dirname(os.path.abspath(__file__))


# ---- the listing of document 01

def listing_stream():
    return cases.LISTING


# ---- five cameras on a rig, six views of a target

def turned(i, j, k):
    """The quaternion i, j, k, w of a turn, from its vector part over its scalar part. It takes roots and quotients alone, so that
    every machine makes the same samples."""
    length = math.sqrt(i * i + j * j + k * k + 1.0)
    return (i / length, j / length, k / length, 1.0 / length)


def five_cameras_stream(bumped=None):
    """Cameras 3 and 4 never see the target together with reference 0: their chains go over 1 and 2.

    Camera 3 sees it twice with camera 2 and once with camera 1, so its parent is 2. Camera 4 sees it with 1 and with 3.
    Each pose is what the camera would measure, with a little noise in all seven numbers. Of a cell that is named as bumped, the pose is first sent with
    the target moved by a hand's breadth; after a Solve it is withdrawn and sent as it should be.
    """
    noise = random.Random(2026)
    rig_se3_cam = [
        oracle.IDENTITY,
        (0.12, 0.0, 0.01) + turned(0.0, 0.08, 0.0),
        (-0.12, 0.0, 0.01) + turned(0.0, -0.08, 0.0),
        (-0.25, 0.02, -0.05) + turned(0.0, -0.5, -0.05),
        (0.25, 0.02, -0.05) + turned(0.0, 0.5, -0.05),
    ]
    rig_se3_target = [
        (0.1 * v - 0.25, 0.05 * (v % 3), 1.0 + 0.1 * v) + turned(0.2 - 0.05 * v, 0.1 * v, 0.03) for v in range(6)
    ]
    seen = [(0, 1, 2), (0, 1), (0, 2), (1, 3, 4), (2, 3), (2, 3, 4)]
    stream, again = size(6, 5, 0), b''
    for v, cameras in enumerate(seen):
        for c in cameras:
            measured = oracle.product(oracle.inverse(rig_se3_cam[c]), rig_se3_target[v])
            noisy = [a + noise.uniform(-1e-4, 1e-4) for a in measured]
            if (v, c) == bumped:
                again = SOLVE + withdraw(v, c) + pose(v, c, noisy)
                noisy = oracle.product((0.0, 0.1, 0.0) + turned(0.0, 0.0, 0.1), noisy)
            stream += pose(v, c, noisy)
    return stream + again + SOLVE


# ---- the same, with the target bumped when camera 3 saw it in view 4: in the end the rig is that of five cameras, bit for bit

def bumped_stream():
    stream = five_cameras_stream(bumped=(4, 3))
    assert oracle.rig(stream).endswith(oracle.rig(five_cameras_stream()))
    return stream


# ---- three cameras of which each two are to share two views: a pose is taken back on the way, and the last two make up what is missing

def pairs_stream():
    def seen(view, camera):
        """What a camera sees of a target, neither of them turned."""
        return pose(view, camera, (0.5 * view - 0.25 * camera, 0.125 * view, 2.0, 0.0, 0.0, 0.0, 1.0))

    sent = [(0, 0), (0, 1), (1, 1), (1, 2), (2, 0), (2, 1), (2, 2)]
    stream = size(4, 3, 0) + b''.join(seen(*cell) for cell in sent)
    return stream + SOLVE + withdraw(0, 1) + seen(0, 1) + seen(3, 0) + seen(3, 2) + SOLVE


def tables(stream, fewest):
    """What examples/c/shared.c prints for a stream of commands that are whole: after each accepted Pose and Withdraw the counts, and the pairs with too few."""
    session, at, text = oracle.Session(), 0, ''
    while at < len(stream):
        command = stream[at:at + 3]
        reply, at = session.call(stream, at)
        if reply != 'accepted':
            text += oracle.lines(reply) if len(reply) == 2 else 'solved\n'
        elif command[0] != 1:
            text += '%s of view %d, camera %d\n' % ({2: 'Pose', 4: 'Withdraw'}[command[0]], command[1], command[2])
            text += table(session, fewest)
    return text


def table(session, fewest):
    cameras = range(session.cameras)

    def field(first, second):
        count = session.query(first, second)
        shown = '[%d]' % count if first == second else '%s%d ' % ('*' if count < fewest else '', count)
        return shown.rjust(5)

    rows = [' ' * 10 + ''.join(str(c).rjust(4) + ' ' for c in cameras)]
    rows += ['camera %2d ' % first + ''.join(field(first, second) for second in cameras) for first in cameras]
    short = ['%d and %d (%d)' % (a, b, session.query(a, b)) for a in cameras for b in cameras if a < b and session.query(a, b) < fewest]
    rows.append('fewer than %d: %s' % (fewest, ', '.join(short)) if short else 'every two cameras share %d or more' % fewest)
    return ''.join(row.rstrip() + '\n' for row in rows)


# ---- three cameras over four views, packed as the arm controller does: camera 2 does not see the first view

ARM_SIZE = size(4, 3, 0)


def arm_frames():
    """Whole micrometres, and rotation numbers to the nearest of 2^30 parts: what is lost by that is all that is wrong with the poses. Rounding halves to even as
    Python does, and every machine makes the same frames."""
    rig_se3_cam = [
        oracle.IDENTITY,
        (0.2, 0.0, 0.015) + turned(0.0, 0.12, 0.0),
        (-0.2, 0.01, 0.015) + turned(0.01, -0.12, 0.02),
    ]
    rig_se3_target = [
        (0.08 * v - 0.12, 0.04 - 0.03 * v, 0.9 + 0.05 * v) + turned(0.15 - 0.1 * v, 0.05 * v, -0.04 * v) for v in range(4)
    ]
    packed = b''
    for v in range(4):
        for c in range(3):
            if (v, c) == (0, 2):
                continue
            seen = oracle.product(oracle.inverse(rig_se3_cam[c]), rig_se3_target[v])
            packed += frame(v, c, [round(a * 1000000) for a in seen[:3]], [round(a * 2 ** 30) for a in seen[3:]])
    return packed


def arm_stream(packed):
    """The frames between a Size and a Solve, as a shell pipes them into rig."""
    commands, told = oracle.frames(packed)
    assert not told
    return ARM_SIZE + commands + SOLVE


# ---- a stream in which every second command is refused

def refused_stream():
    good = (0.5, -0.25, 2.0, 0.0, 0.0, 0.0, 1.0)
    bad = good[:6] + (math.nan,)
    return (
        SOLVE                       # 21
        + size(2, 2, 2)             # 3
        + size(2, 2, 1)
        + size(2, 2, 1)             # 22
        + pose(0, 0, good)
        + pose(0, 0, good)          # 23
        + pose(2, 0, good)          # 12
        + pose(1, 1, bad)           # 7
        + withdraw(1, 1)            # 24
        + SOLVE                     # 8: camera 0 shares no view with reference 1
        + pose(0, 1, good)
        + SOLVE                     # 9: view 1 is empty
        + pose(1, 0, good)
        + SOLVE
        + bytes([9])                # 10
        + SOLVE                     # not read any more
    )


# ---- the program's own test: document 01's listing, then refusals that go on, its pose taken back, the listing again, and one that ends the stream

def program_stream():
    seen = (1.0, 0.0, 0.0, 0.0, 0.0, 0.0, 1.0)
    return (
        listing_stream()
        + size(1, 1, 0)             # 22
        + pose(0, 0, seen)          # 23
        + pose(1, 0, seen)          # 12
        + SOLVE
        + withdraw(0, 0)
        + withdraw(0, 0)            # 24
        + SOLVE                     # 9
        + pose(0, 0, seen)
        + SOLVE
        + bytes([9])                # 10
        + SOLVE                     # not read any more
    )


def write(path, data):
    path = os.path.join(HERE, path)
    os.makedirs(os.path.dirname(path), exist_ok=True)
    with open(path, 'wb') as file:
        file.write(data)


def main():
    streams = {'listing': listing_stream(), 'five_cameras': five_cameras_stream(), 'bumped': bumped_stream(), 'pairs': pairs_stream(), 'refused': refused_stream()}
    for name, stream in streams.items():
        write(name + '.stream', stream)
        write(name + '.listing', oracle.rig(stream).encode())
    write('pairs.tables', tables(pairs_stream(), 2).encode())
    write('arm.frames', arm_frames())
    write('arm.listing', oracle.rig(arm_stream(arm_frames())).encode())
    write('../crates/rig/stdin', program_stream())
    write('../crates/rig/stdout', oracle.rig(program_stream()).encode())
    write('../crates/frames/stdin', arm_frames())
    write('../crates/frames/stdout', oracle.frames(arm_frames())[0])
    write('../crates/test_session/stdin', b''.join(case.encode() for case in cases.cases()))
    write('../crates/test_session/stdout', ''.join(case.expected() for case in cases.cases()).encode())


if __name__ == '__main__':
    main()
