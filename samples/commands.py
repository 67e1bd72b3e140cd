"""The commands of a stream, and packed frames, as documents 01 and 02 have their bytes."""

import struct

SOLVE = bytes([3])


def size(views, cameras, reference):
    return bytes([1, views, cameras, reference])


def pose(view, camera, numbers):
    return bytes([2, view, camera]) + struct.pack('<7d', *numbers)


def withdraw(view, camera):
    return bytes([4, view, camera])


def frame(view, camera, micrometres, units):
    """A packed frame: three whole micrometres, and four rotation numbers in whole units of 2 to the -30."""
    return bytes([view, camera]) + struct.pack('<7i', *micrometres, *units)
