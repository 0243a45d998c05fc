"""The writer of files, frame by frame."""

import struct


def frame(kind, payload, gate=1):
    return bytes([gate, kind]) + struct.pack('<I', len(payload)) + payload


def header(version, width):
    return b'\1CVECSEG' + struct.pack('<BH', version, width)


def group(growths):
    lengths = [len(growth) for growth in growths]
    return frame(1, struct.pack('<%dI' % (1 + len(growths)), len(growths), *lengths) + b''.join(map(b''.join, growths)))


def change(version, runs):
    """Of runs of start and cells."""
    cells = b''.join(b''.join(cells) for _, cells in runs)
    if version == 1:
        return frame(2, struct.pack('<Q', runs[0][0]) + cells)
    heads = b''.join(struct.pack('<QI', start, len(cells)) for start, cells in runs)
    return frame(2, struct.pack('<I', len(runs)) + heads + cells)


def shrink(length):
    return frame(3, struct.pack('<Q', length))


def fold(count):
    return frame(4, struct.pack('<Q', count))


def numbers(*values):
    return [struct.pack('<Q', value) for value in values]


def all_kinds(version, home=5):
    """A file of u64 with all kinds of frame, of which one change is live. No program has left it, unless the first home has
    what the folded change has, 7."""
    runs = [(0, numbers(7))] if version == 1 else [(0, numbers(7)), (2, numbers(8))]
    return (header(version, 8) + group([numbers(home, 6), numbers(4)]) + change(version, runs) + fold(1)
            + shrink(2) + group([numbers(3)]) + change(version, [(1, numbers(9, 10))]) + b'\0')
