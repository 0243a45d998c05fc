"""Crash images: random lists of steps over disks that stop, tear and fail at each call, and images that are opened and gone on with.

A follower on plain lists (tests/scripts/follow.py) foresees each answer, each byte, and the lists that images may hold behind each
call. Images of each moment are laid out by the disk's model, read by the reader of files, and given to the program, which opens
each and resizes it on disks that stop at each call. None of these shares code with the program."""

import follow
from crashed import Disk, images
from program import RUNNER, run
from random_jobs import random_script
from reader import Fault, File

WEIGHT = 5
WALKS, MOST = 12, 80


class Places(File):
    """The file of an image, with the group of each position, and the place of the closed gate."""

    def __init__(self, image):
        self.gate, self.groups, self.group_of = 11, 0, []
        super().__init__(image, 'u64')

    def read_frame(self, place):
        self.gate = super().read_frame(place)
        return self.gate

    def read_group(self, body, length):
        super().read_group(body, length)
        self.group_of += [self.groups] * (len(self.homes) - len(self.group_of))
        self.groups += 1

    def read_shrink(self, place, length):
        super().read_shrink(place, length)
        del self.group_of[length:]


def list_in(image):
    """What an image opens to, as scripts say it."""
    try:
        return follow.listed([int.from_bytes(cell, 'little') for cell in File(image, 'u64').cells])
    except Fault as fault:
        return str(fault)


class Filed(follow.File):
    """The follower's file over a disk, begun with an image."""

    def __init__(self, image, disk):
        super().__init__()
        self.disk = disk
        try:
            found = Places(image)
        except Fault:
            return
        self.version, self.bytes = found.version, image[:found.gate + 1]
        self.homes, self.groups = list(zip(found.homes, found.group_of)), found.groups
        self.records = [int.from_bytes(cell, 'little') for cell in found.cells]
        self.changes, self.folded = len(found.changes), found.folded
        self.live = [(number, start, count) for number, runs in enumerate(found.changes, 1) if number > found.folded
                     for start, count, _ in runs]

    def frame(self, kind, payload):
        self.gate = len(self.bytes) - 1
        super().frame(kind, payload)

    def write_home(self, positions, values):
        super().write_home(positions, values)
        self.disk.write(self.homes[positions[0]][0], b''.join(follow.u(values[p], 8) for p in positions))


class Traced(follow.Run):
    """The follower, and what the disk has behind each call."""

    def __init__(self, image):
        self.disk, self.births = Disk(image), []
        super().__init__(Filed(image, self.disk), {list_in(image)})
        self.moments = [self.disk.moment()]

    def call(self, lists=None, write=False):
        if write and self.births:
            self.disk.write(*self.births.pop(0))
        elif not write:
            self.disk.sync()
        super().call(lists, write)
        self.moments.append(self.disk.moment())

    def create(self, version):
        made = b'\1CVECSEG' + bytes([version, 8, 0, 0])
        self.births = [(0, b'\0'), (1, made[1:]), (0, made[:1])]
        return super().create(version)

    def commit_calls(self, k, before, after):
        gate = self.file.gate
        if k == 1:
            self.disk.write(gate + 1, self.file.bytes[gate + 1:])
        elif k == 3:
            self.disk.write(gate, b'\1')
        super().commit_calls(k, before, after)


def sections(script):
    """The steps between crashes. A run over an image begins by opening it."""
    steps = []
    for step in script:
        if step.startswith('crash '):
            yield steps
            steps = []
        else:
            steps.append(step)


def cuts_of(rng, traced):
    """What a disk leaves that stops or fails at each of its calls: by how many bytes of a write arrive."""
    calls = len(traced.writes)
    yield 'stop 0-%d -> %s' % (calls, follow.one([traced.stopped(k) for k in range(calls + 1)]))
    arriving = rng.choice([0, rng.randint(1, 40), 'all'])
    yield 'fail %s 0-%d -> %s' % (arriving, calls, follow.one([traced.failed(k, arriving) for k in range(calls + 1)]))


def walk(rng, counts):
    """The lines of a script with their answers, and what is wrong with an image of the follower's disk by the reader."""
    lines, wrong, image = [], None, b''
    for steps in sections(random_script(rng)):
        if list_in(image) == 'unborn':
            steps = [step.replace('open', 'create') for step in steps]
        traced = Traced(image)
        lines.append('begin %s -> ok' % image.hex())
        lines += ['%s -> %s' % (step, traced.answer(step)) for step in steps]
        lines += ['calls -> %d' % len(traced.writes), 'file -> %s' % traced.disk.seen.hex(), *cuts_of(rng, traced)]
        counts['stops'] += 2 * (len(traced.writes) + 1)
        seen = set()
        for calls, moment in enumerate(traced.moments):
            for left in images(rng, moment, MOST):
                found, allowed = list_in(left), traced.sets[calls]
                if found not in allowed:
                    wrong = wrong or '%d calls behind a crash there is %s and not %r: %s' % (calls, found, allowed, left.hex())
                if left not in seen:
                    seen.add(left)
                    lines += ['begin %s -> ok' % left.hex(), 'images -> %s' % found]
        counts['images'] += len(seen)
        image = rng.choice(images(rng, traced.moments[-1], MOST))
    return lines, wrong


def judge(rng, _folder, counts):
    """Walks whose scripts one process of the program answers."""
    lines, wrong = [], None
    for _ in range(WALKS):
        more, told = walk(rng, counts)
        lines += more
        wrong = wrong or told
    counts['walks'] += WALKS
    script = ('\n'.join(lines) + '\n').encode()
    if wrong is not None:
        return wrong, script
    status, written, told = run([], script, program=RUNNER, limit=600)
    found = written.decode().splitlines()
    if (status, told) != (0, b''):
        wrong = 'the scripts ended with %s and told %r' % (status, told)
    if wrong is None and found != lines:
        at = next((k for k, (line, answer) in enumerate(zip(lines, found)) if line != answer), min(len(lines), len(found)))
        begun = max(k for k in range(at + 1) if lines[k].startswith('begin'))
        wrong = '\n'.join(['line %d, wanted and found:' % (at + 1), *lines[at:at + 1], *found[at:at + 1], 'behind', *lines[begun:at]])
    return wrong, script
