"""Conversations with a server: of one client, two or three, whose requests are of any form (docs/use/serve.md)."""

import os
import struct
import tempfile

from program import PROGRAM, run
from random_files import frames_image, random_cells
from reader import TYPES, Fault, File

ANSWER_HEAD = struct.Struct('<IIQQ')
END, GROW, AWAIT, LOOK, READ = range(5)
PAYLOAD_ROOM = (1 << 20) - 8


# ---- requests: their bytes, and what is asked

def head(kind, count=0, start=0):
    return struct.pack('<IIQ', kind, count, start)


def refused_request(rng, width, is_flagged):
    """One that ends the conversation, and the status by which it is answered."""
    some, many = rng.randint(1, 1 << 31), rng.choice([PAYLOAD_ROOM // width + 1, (1 << 32) - 1])
    return rng.choice([
        (head(rng.randint(5, (1 << 32) - 1), some, some), 1),
        (head(rng.choice([END, AWAIT, LOOK]), *rng.choice([(some, 0), (0, some)])), 2),
        (head(GROW, rng.randrange(2), some), 2),
        (head(rng.choice([GROW, READ])), 3),
        (head(rng.choice([GROW, READ]), many), 4),
        (head(GROW, 1) + bytes(8) + b'\2', 5) if is_flagged else (head(GROW), 3)])


def random_requests(rng, kind, size):
    """What a client asks, one request behind the other: the last one may be the end, be refused, or be cut short."""
    asked = []
    for _ in range(rng.randrange(12)):
        what = rng.randrange(8)
        if what < 4:
            cells = random_cells(rng, kind, 5)
            asked.append((head(GROW, len(cells)) + b''.join(cells), GROW, cells))
        elif what < 6:
            asked.append((head(what - 2), what - 2, None))
        else:
            start, count = rng.randrange(size + 20), rng.randint(1, 9)
            asked.append((head(READ, count, start), READ, (start, count)))
    last = rng.randrange(4)
    if last == 0:
        asked.append((head(END), END, None))
    elif last == 1:
        asked.append((*refused_request(rng, TYPES[kind][0], kind == 'flagged'), 'refused'))
    elif last == 2:
        cells = random_cells(rng, kind, 3)
        whole = head(GROW, len(cells)) + b''.join(cells)
        asked.append((whole[:rng.randrange(1, len(whole))], 'cut', None))
    return asked


def random_conversations(rng):
    kind = rng.choice(list(TYPES))
    image = frames_image(rng, kind)
    try:
        size = len(File(image, kind).cells)
    except Fault:
        return random_conversations(rng)
    return kind, image, [random_requests(rng, kind, size) for _ in range(rng.randint(1, 3))]


# ---- answers

def parsed(answered, width):
    """The heads of the answers, each with its records; behind them what is none."""
    answers, at = [], 0
    while at + ANSWER_HEAD.size <= len(answered):
        status, count, first, second = ANSWER_HEAD.unpack_from(answered, at)
        at += ANSWER_HEAD.size
        cells = [answered[at + k * width:at + (k + 1) * width] for k in range(count)]
        at += count * width
        answers.append((status, first, second, cells))
    return answers, answered[at:]


def growths_in(asked, answers):
    """The growths that were made: number, start and cells."""
    return [(first, second, what) for (_, kind, what), (status, first, second, _) in zip(asked, answers)
            if kind == GROW and status == 0]


def order_differs(growths, size):
    """Whether the growths don't stand one behind the other in the order of their numbers."""
    for place, (number, start, cells) in enumerate(sorted(growths, key=lambda it: it[0])):
        if (number, start) != (place, size):
            return 'growth %d begins at %d, not growth %d at %d' % (number, start, place, size)
        size += len(cells)
    return None


def read_differs(answer, what, vector, ends, known):
    """Whether a read gives other records than those that stand there, or none where the seat knows some."""
    (start, count), (status, first, second, cells) = what, answer
    end = min((it for it in ends if it > start), default=start)
    there = vector[start:min(start + count, end)]
    if (status, first, second) == (0, start, 0) and (cells == there or cells == [] and start >= known):
        return None
    return 'a read of %d from %d on gives %r' % (count, start, answer)


def talk_differs(asked, answers, vector, ends, size, count):
    """What is wrong with the answers of one client, or nothing. `ends` are the ends of pieces, `size` that of the first; there
    are `count` growths in all."""
    known, own = size, 0
    for (_, kind, what), answer in zip(asked, answers):
        status, first, second, cells = answer
        told = None
        if what == 'refused':
            told = None if answer == (kind, 0, 0, []) else 'a request refused %d is answered %r' % (kind, answer)
        elif kind == READ:
            told = read_differs(answer, what, vector, ends, known)
        elif status != 0 or cells:
            told = 'request %r is answered %r' % (kind, answer)
        elif kind == GROW:
            known, own = max(known, second + len(what)), first + 1
        elif kind == AWAIT and not (own <= first <= count and second == 0):
            told = 'settled %d of growths up to %d' % (first, own)
        elif kind == LOOK:
            if not (known <= first <= len(vector) and first in ends and second <= count):
                told = 'a look gives %d records, where %d were known' % (first, known)
            known = max(known, first)
        elif kind == END and (first, second) != (0, 0):
            told = 'an end is answered %r' % (answer,)
        if told:
            return told
    return None


def differs(kind, image, talks, found, answered, after):
    """What is wrong with the server, or nothing."""
    width = TYPES[kind][0]
    before = File(image, kind).cells
    heard = [parsed(it, width) for it in answered]
    growths = [it for asked, (answers, _) in zip(talks, heard) for it in growths_in(asked, answers)]
    if (found[0], found[1]) != (0, b'served %d growths\n' % len(growths)):
        return 'it ends %r' % (found,)
    told = order_differs(growths, len(before))
    if told:
        return told
    vector, ends = list(before), [len(before)]
    for _, _, cells in sorted(growths, key=lambda it: it[0]):
        vector += cells
        ends.append(len(vector))
    if File(after, kind).cells != vector:
        return 'the file has other records than were grown'
    for asked, (answers, rest) in zip(talks, heard):
        wanted = sum(kind != 'cut' for _, kind, _ in asked)
        if len(answers) != wanted or rest:
            return '%d requests have %d answers, and %d bytes' % (wanted, len(answers), len(rest))
        told = talk_differs(asked, answers, vector, ends, len(before), len(growths))
        if told:
            return told
    return None


# ---- a server

SERVES = 'for k in $(seq 0 $((SEATS - 1))); do eval "exec $((3 + 2 * k))<asked.$k $((4 + 2 * k))>heard.$k"; done; exec "$@"'


def judge_served(job):
    kind, image, talks = job
    kept = '%s\n%s\n%r\n' % (kind, image.hex(), talks)
    with tempfile.TemporaryDirectory() as folder:
        with open(os.path.join(folder, 'file'), 'wb') as file:
            file.write(image)
        for k, asked in enumerate(talks):
            with open(os.path.join(folder, 'asked.%d' % k), 'wb') as file:
                file.write(b''.join(it[0] for it in asked))
        words = ['-c', SERVES, 'serve', PROGRAM, 'serve', kind, 'file', '--seats=%d' % len(talks)]
        found = run(words, program='/bin/sh', cwd=folder, env={**os.environ, 'SEATS': str(len(talks))})
        answered = []
        for k in range(len(talks)):
            with open(os.path.join(folder, 'heard.%d' % k), 'rb') as file:
                answered.append(file.read())
        with open(os.path.join(folder, 'file'), 'rb') as file:
            told = differs(kind, image, talks, found, answered, file.read())
    return told and 'serve: ' + told, kept.encode()
