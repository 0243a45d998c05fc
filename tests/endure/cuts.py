"""Power cuts of real runs: the device calls of a command, of a writer in each language or of a server are noted, and for random
moments images are laid out as the disk's model allows. Each is read by the reader of files, compared with what was told by then, and
opened and gone on with by the program."""

import os
import subprocess
import tempfile

from crashed import Disk, images
from follow import listed
from program import RUNNER, run
from reader import TYPES
from works import BUILT, SCRATCH, cells_of, random_work, read

WEIGHT = 3
MOMENTS, MOST = 40, 8
ENGINE_TYPES = ('u8', 'u32', 'u64', 'i64', 'pair', 'flagged', 'bytes24')


def noted(work, folder):
    """How a work ends, and its device calls and what it told, in their order."""
    trace = os.path.join(folder, 'trace')
    environment = {**os.environ, **work.environment, 'CALLS_TRACE': trace, 'LD_PRELOAD': os.path.join(BUILT, 'calls.so')}
    done = subprocess.run(work.words(folder), input=work.given, capture_output=True, timeout=120, env=environment)
    return done.returncode, list(events(read(trace)))


def events(trace):
    at = 0
    while at < len(trace):
        end = trace.index(b'\n', at)
        kind, *words = trace[at:end].decode().split(' ')
        length = 0 if kind == 'sync' else int(words[-1])
        yield kind, words, trace[end + 1:end + 1 + length]
        at = end + 1 + length


def moments(work, calls):
    """Behind each call what the disk has, what was told, and the bytes that a read gives."""
    disk, told = Disk(work.image), {}
    yield disk.moment(), dict(told), bytes(disk.seen)
    for kind, words, given in calls:
        if kind in ('answer', 'tell'):
            to = words[0] if kind == 'tell' else 'answer'
            told[to] = told.get(to, b'') + given
        elif words[0] != work.file:
            continue
        elif kind == 'write':
            disk.write(int(words[1]), given)
        else:
            disk.sync()
        yield disk.moment(), dict(told), bytes(disk.seen)


def list_of(image, kind):
    cells = cells_of(image, kind)
    if isinstance(cells, list):
        return listed([TYPES[kind][2](cell) for cell in cells])
    return cells or 'unborn'


def opened_wrongly(found, kind):
    """What is wrong with how the program opens these images and goes on with them."""
    lines = ['type %s -> ok' % kind]
    for image in found:
        lines += ['begin %s -> ok' % image.hex(), 'images -> %s' % list_of(image, kind)]
    status, written, _ = run([], ('\n'.join(lines) + '\n').encode(), program=RUNNER, limit=300)
    answers = written.decode().splitlines()
    if status == 0 and answers == lines:
        return None
    return 'opened: status %s, wanted and found %r' % (status, [it for it in zip(lines, answers) if it[0] != it[1]][:1])


def judge(rng, _folder, counts, work=None):
    work = work or random_work(rng, rng.randint(3, 12))
    with tempfile.TemporaryDirectory(dir=SCRATCH) as folder:
        work.prepare(folder)
        status, calls = noted(work, folder)
        all_moments = list(moments(work, calls))
        left = read(os.path.join(folder, work.file))
    counts['runs'] += 1
    work.finish(all_moments[-1][1])
    wrong = None if status == work.status else '%s ended with %s' % (work.name, status)
    if all_moments[-1][2] != left:
        wrong = wrong or '%s: the file has other bytes than were noted' % work.name
    seen = {}
    for moment, told, _ in rng.sample(all_moments, min(len(all_moments), MOMENTS)):
        for image in images(rng, moment, MOST):
            counts['images'] += 1
            wrong = wrong or work.wrong(image, told)
            seen[image] = None
    if work.kind in ENGINE_TYPES:
        counts['opened'] += len(seen)
        wrong = wrong or opened_wrongly(seen, work.kind)
    return wrong, repr((work.name, work.words('.'), work.given, calls)).encode()
