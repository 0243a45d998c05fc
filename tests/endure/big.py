"""Big: files of more growths than a phase has room for, by a command and by threads of C and Python, and one of more than 4 GiB."""

import mmap
import os
import struct
import subprocess
import sys
import tempfile
from array import array

from program import run
from works import BUILT, PYTHON

WEIGHT = 1
ROOM = 1_048_568
LARGE = (1 << 32) // 8 + 1000
GROWN = '''
import sys
sys.modules["numpy"] = None
from cvec import Vector
with Vector.create(sys.argv[1]) as vector:
    for number in range(int(sys.argv[2])):
        receipt = vector.grow([number])
    vector.settle(receipt)
'''


def groups_of(path):
    """The growths and the records of each group of a file that has nothing else, as they stand there."""
    with open(path, 'rb') as file, mmap.mmap(file.fileno(), 0, access=mmap.ACCESS_READ) as image:
        width, at = struct.unpack_from('<H', image, 9)[0], 11
        while image[at] == 1:
            kind, length, count = struct.unpack_from('<BII', image, at + 1)
            first = at + 10 + 4 * count
            if kind != 1 or (at + 6 + length - first) % width:
                raise ValueError('no group at %d' % at)
            yield count, image[first:at + 6 + length]
            at += 6 + length


def grown(path, growths):
    lines = ''.join('%d\n' % number for number in range(growths))
    run(['create', 'u64', path])
    return run(['load', 'u64', path], lines.encode(), limit=600)[:2] == (0, b'loaded %d growths, size %d\n' % (growths, growths))


def by_command(path):
    return grown(path, ROOM + 1)


def by_python(path):
    words = [sys.executable, '-c', GROWN, path, str(ROOM + 1)]
    return subprocess.run(words, env={**os.environ, **PYTHON}, timeout=1800).returncode == 0


def judge_growths(make, folder):
    """Each growth is one record, which is its number."""
    path = os.path.join(folder, 'file')
    done, growths, records = make(path), 0, array('Q')
    for count, cells in groups_of(path):
        growths += count
        records.frombytes(cells)
    wanted = array('Q', range(ROOM + 1))
    return None if done and growths == ROOM + 1 and records == wanted else '%s left %d growths' % (make.__name__, growths)


def judge_fill(folder):
    """Threads of C fill phases beside a reader, and read the file again themselves."""
    words = [os.path.join(BUILT, 'fill'), os.path.join(folder, 'file'), '4', str(ROOM + 1), str(ROOM)]
    done = subprocess.run(words, capture_output=True, timeout=1800)
    return None if done.returncode == 0 else 'fill ended with %s: %s' % (done.returncode, done.stderr.decode())


def judge_large(folder):
    """A file is resized past 4 GiB in parts; then it is appended to, and the end of it is read."""
    path = os.path.join(folder, 'file')
    run(['create', 'u64', path, '--format=2'])
    answers = [run(['resize', 'u64', path, str(LARGE), '--record=7', '--parts'], limit=3600)[:2],
               run(['append', 'u64', path], b'9\n', limit=3600)[:2],
               run(['list', 'u64', path, '--from=%d' % (LARGE - 2)], limit=3600)[:2]]
    size = sum(len(cells) for _, cells in groups_of(path)) // 8
    wanted = [(0, b'ok\n'), (0, b'appended 1 growths, size %d\n' % (LARGE + 1)), (0, b'7\n7\n9\n')]
    return None if answers == wanted and size == LARGE + 1 and os.path.getsize(path) > 1 << 32 else '%r, size %d' % (answers, size)


def judge(rng, folder, counts):
    what = rng.choice(['command', 'python', 'fill', 'large'])
    counts[what] += 1
    with tempfile.TemporaryDirectory(dir=folder) as there:
        if what == 'large':
            return judge_large(there), b''
        if what == 'fill':
            return judge_fill(there), b''
        return judge_growths(by_command if what == 'command' else by_python, there), b''
