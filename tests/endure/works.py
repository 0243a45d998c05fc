"""What writes files here: commands, writers of each language, and servers. A work says what may stand in its file behind what it has
told, whenever it is cut off: by plain lists, the reader of files and the blocks that writers write."""

import os
import sys

from commands import COPYING, command_words, foresee, texts_in
from program import PROGRAM, TOP, differs, run
from random_files import frames_image, random_cells
from reader import TYPES, Fault, File, answers_of
from serving import AWAIT, SERVES, growths_in, parsed, random_conversations
from vector_blocks import places_of
from vector_steps import STEPS

# Where tests/endure/programs puts what it builds.
BUILT = os.environ.get('ENDURE_BUILT', '')
PYTHON = {'PYTHONPATH': os.pathsep.join(os.path.join(TOP, it) for it in ('bindings/python', 'tests/bindings')),
          'CVEC_LIB': BUILT, 'PYTHONDONTWRITEBYTECODE': '1'}
VERBS = ('create', 'load', 'append', 'append', 'set', 'resize', 'clear', 'fold', 'upgrade', 'copy')


# Where files stand that no device has to keep.
SCRATCH = '/dev/shm' if os.access('/dev/shm', os.W_OK) else None


def read(path):
    try:
        with open(path, 'rb') as file:
            return file.read()
    except FileNotFoundError:
        return b''


def put(path, content):
    with open(path, 'wb') as file:
        file.write(content)


def cells_of(image, kind):
    """Its records, None where a file isn't born yet, or the words of its fault."""
    try:
        return File(image, kind).cells
    except Fault as fault:
        return None if str(fault) == 'unborn' else str(fault)


class Work:
    """The file that it writes holds `image` before it, and undisturbed it ends with `status`. `told` has the bytes that it has written
    so far: its `answer` on standard output, and by the names of other files."""
    kind, file, image, given, environment, status = 'u64', 'file', b'', b'', {}, 0

    def prepare(self, folder):
        """Lays out its files in an empty folder."""

    def finish(self, told):
        """Learns from all that was told how the work went, before it is asked about moments of it."""

    def wrong(self, image, told, fails=False):
        """Why these bytes may not stand in the file behind what was told, or None. Where it `fails` it may have told a refusal."""
        cells = cells_of(image, self.kind)
        if isinstance(cells, str):
            return 'the file is %s' % cells
        return self.wrong_cells(cells, told, fails)


class Command(Work):
    """A command over a random file. `lists` has what it may leave, in the order in which it makes them."""

    def __init__(self, rng, name=None):
        self.kind, self.name = rng.choice(list(TYPES)), name or rng.choice(VERBS)
        text, self.source = TYPES[self.kind][2], b'' if self.name == 'create' else frames_image(rng, self.kind)
        records = [text(it) for it in random_cells(rng, self.kind, 4)]
        self.more = {'set': ['%d' % rng.randrange(6), '--records=' + ','.join(records)],
                     'resize': ['%d' % rng.randrange(40), '--record=' + records[0]] + ['--parts'] * rng.randrange(2),
                     'append': ['--block=%d' % rng.randint(1, 3)], 'copy': ['--block=%d' % rng.randint(1, 4)],
                     'create': ['--format=%d' % rng.randint(1, 2)]}.get(self.name, [])
        self.lines = []
        if self.name in ('load', 'append'):
            self.lines = [' '.join(map(text, random_cells(rng, self.kind, 4))) for _ in range(rng.randint(1, 20))]
        self.given = ''.join(line + '\n' for line in self.lines).encode()
        if self.name in COPYING:
            self.file = 'file.new'
        else:
            self.image = self.source
        answer, texts = foresee(self.kind, self.name, self.more, self.lines, self.source)
        self.answer, self.status = (answer + '\n').encode(), int(answer.startswith('refused: '))
        self.lists = self.foreseen(texts)

    def foreseen(self, after):
        if self.name == 'create':
            return [None, []]
        before = texts_in(File(self.source, self.kind))
        if self.name in COPYING:
            if self.status:
                return [None]
            block = int(self.more[0].split('=')[1]) if self.more else len(before) or 1
            return [None, *(before[:end] for end in range(0, len(before), block)), before]
        if after is None:
            return [before]
        if self.name in ('load', 'append'):
            block = int(self.more[0].split('=')[1]) if self.more else 1
            ends = [line.count(' ') + 1 for line in self.lines]
            counts = [sum(ends[:k]) for k in range(0, len(ends), block)]
            return [after[:len(before) + count] for count in counts] + [after]
        if '--parts' in self.more:
            return [after[:end] for end in range(len(before), len(after))] + [before, after]
        return [before, after]

    def prepare(self, folder):
        if self.source:
            put(os.path.join(folder, 'file'), self.source)

    def words(self, folder):
        return [PROGRAM, *command_words(self.name, self.kind, os.path.join(folder, 'file'), self.more)]

    def wrong_cells(self, cells, told, fails):
        text, answer = TYPES[self.kind][2], told.get('answer', b'')
        texts = None if cells is None else [text(cell) for cell in cells]
        allowed = self.lists
        if answer == self.answer:
            allowed = self.lists[-1:]
        elif answer and not (fails and answer.startswith(b'refused: ')):
            return '%s answers %r' % (self.name, answer)
        return None if texts in allowed else '%s leaves %r behind %r' % (self.name, texts, answer)


class Writer(Work):
    """Threads that grow blocks, in C, C++, Python or Rust, and tell which are durable, with their places."""

    def __init__(self, rng, turns, name=None):
        self.name = name or rng.choice(['c', 'cpp', 'python', 'rust'])
        self.round, self.threads, self.turns, self.known = 0, rng.randint(1, 8), turns, {}
        self.program = {'python': [sys.executable, os.path.join(TOP, 'tests/bindings/vector_writer.py')],
                        'rust': [os.path.join(BUILT, 'cases'), 'write']}.get(self.name, [os.path.join(BUILT, 'writer_' + self.name)])
        self.environment = PYTHON

    def words(self, folder):
        return [*self.program, os.path.join(folder, 'file'), str(self.round), str(self.threads), str(self.turns)]

    def next_round(self, told):
        """Goes on over the file, where what was told before has to stand."""
        self.known.update(self.places_told(told))
        self.round += 1

    def places_told(self, told):
        lines = [line.split() for line in told.get('answer', b'').decode().split('\n')[:-1]]
        return {(self.round, int(name), int(turn)): int(start) for name, turn, start in lines}

    def wrong_cells(self, cells, told, _fails):
        known = {**self.known, **self.places_told(told)}
        try:
            places = places_of([int.from_bytes(cell, 'little') for cell in cells or []])
        except AssertionError as wrong:
            return '%s: %s' % (self.name, wrong)
        lost = sorted(key for key, at in known.items() if places.get(key) != at)
        return '%s: told, and not there: %r' % (self.name, lost[:5]) if lost else None


class Steps(Work):
    """Calls of a whole vector, in Python or Rust, which tell the number of each that is durable."""

    def __init__(self, rng):
        self.name = rng.choice(['python steps', 'rust steps'])
        script = os.path.join(TOP, 'tests/bindings/vector_steps_writer.py')
        self.program = [sys.executable, script] if 'python' in self.name else [os.path.join(BUILT, 'cases'), 'steps']
        self.environment = PYTHON

    def words(self, folder):
        return [*self.program, os.path.join(folder, 'file')]

    def wrong_cells(self, cells, told, _fails):
        last = ([-1] + [int(it) for it in told.get('answer', b'').split(b'\n')[:-1]])[-1]
        found = None if cells is None else [int.from_bytes(cell, 'little') for cell in cells]
        following = 8 if last == 6 else last + 1
        allowed = STEPS[max(last, 0):following + 1] + ([None] if last < 0 else [])
        return None if found in allowed else '%s leave %r behind step %d' % (self.name, found, last)


class Served(Work):
    """A server and the conversations of up to three clients."""
    name = 'serve'

    def __init__(self, rng):
        self.kind, self.image, self.talks = random_conversations(rng)
        self.environment = {'SEATS': str(len(self.talks))}

    def prepare(self, folder):
        put(os.path.join(folder, 'file'), self.image)
        for k, asked in enumerate(self.talks):
            put(os.path.join(folder, 'asked.%d' % k), b''.join(it[0] for it in asked))

    def words(self, folder):
        return ['/bin/sh', '-c', 'cd "%s"; %s' % (folder, SERVES), 'serve', PROGRAM, 'serve', self.kind, 'file',
                '--seats=%d' % len(self.talks)]

    def heard(self, told):
        return [parsed(told.get('heard.%d' % k, b''), TYPES[self.kind][0])[0] for k in range(len(self.talks))]

    def finish(self, told):
        growths = sorted(it for asked, answers in zip(self.talks, self.heard(told)) for it in growths_in(asked, answers))
        self.lists = [File(self.image, self.kind).cells]
        for _, _, cells in growths:
            self.lists.append(self.lists[-1] + cells)

    def wrong_cells(self, cells, told, _fails):
        settled = [answer[1] for asked, answers in zip(self.talks, self.heard(told))
                   for (_, what, _), answer in zip(asked, answers) if what == AWAIT and answer[0] == 0]
        first = max([0, *settled])
        return None if cells in self.lists[first:] else 'serve leaves %r behind %d settled growths' % (cells, first)


def random_work(rng, turns, kinds=(Command,) * 6 + (Writer,) * 3 + (Steps, Served)):
    """Mostly commands, which are many and short."""
    make = rng.choice(kinds)
    return make(rng, turns) if make is Writer else make(rng)


def goes_on(rng, path, kind):
    """What is wrong with how the program finds and appends to what a work has left."""
    image = read(path)
    cells, text, cell = cells_of(image, kind), TYPES[kind][2], random_cells(rng, kind, 1)[0]
    if image:
        told = differs(['check', kind], run(['check', kind, path]), answers_of(image, kind)[1])
        if told or cells is None:
            return told
    elif run(['create', kind, path])[:2] != (0, b'created\n'):
        return 'no file can be made'
    cells = (cells or []) + [cell]
    told = differs(['append', kind], run(['append', kind, path], text(cell).encode() + b'\n'), (0, b'appended 1 growths, size %d\n' % len(cells)))
    return told or (None if cells_of(read(path), kind) == cells else 'append left other records')
