"""Tables of files: each byte, each cut, random frames, and numbers that ask for much memory."""

import itertools
import os
import random
import tempfile

from outlines import stat_differs
from program import PROGRAM, RUNNER, differs, run
from random_files import random_frames
from reader import TYPES, answers_of
from writer import all_kinds, change, group, header, numbers


def judge_image(job):
    """What is wrong with the answers on an image, and on a file of it too where that is asked for."""
    image, kind, on_files = job
    shown, checked = answers_of(image, kind)
    words = ['show', kind]
    told = differs(words, run(words, image.hex().encode()), shown)
    if told is None and on_files:
        with tempfile.NamedTemporaryFile() as file:
            file.write(image)
            file.flush()
            for words, wanted in [(['check', kind, file.name], checked), (['list', kind, file.name], shown)]:
                told = told or differs(words, run(words), wanted)
            for words in (['stat', file.name], ['stat', file.name, '--json']):
                told = told or stat_differs(words, run(words), image)
            with open(file.name, 'rb') as again:
                if again.read() != image:
                    told = told or 'the file was written'
    return told, ('%s\n%s\n' % (kind, image.hex())).encode()


def list_of(image, kind):
    """The records of an image, or why it has none, as scripts say it (docs/proof/scripts.md)."""
    status, written = answers_of(image, kind)[0]
    words = written.decode().split()
    return ' '.join(words[1:] if status else words) or 'empty'


def judge_opened(job):
    """What is wrong with the lists to which images open. One process opens all of them by a script, since a run of the program
    takes twenty times as long."""
    images, kind = job
    lines = ['type %s -> ok' % kind]
    for image in images:
        lines += ['begin %s -> ok' % image.hex(), 'images -> ' + list_of(image, kind)]
    script = ('\n'.join(lines) + '\n').encode()
    status, written, _ = run([], script, program=RUNNER)
    found = written.decode().splitlines()
    wrong = next(((line, answer) for line, answer in itertools.zip_longest(lines, found) if line != answer), None)
    if status == 0 and wrong is None:
        return None, script
    return 'a script: status %s, wanted and found %r' % (status, wrong), script


def bytes_of(values):
    """Files of both versions with all kinds of frame, of which a byte is set to these values: those of each place together, each
    with whether its value is the first or the last one, or another by the lowest bit."""
    for version in (1, 2):
        image = all_kinds(version)
        for place, byte in enumerate(image):
            yield [(image[:place] + bytes([it]) + image[place + 1:], it in (0, 1, 255, byte ^ 1)) for it in values(byte)]


def each_byte():
    """Each byte set to each value: to be opened."""
    for altered in bytes_of(lambda byte: range(256)):
        yield [image for image, _ in altered], 'u64'


def each_bit():
    """Each byte with another bit, or set to 0, 1 or 255: for the program, on a file too for some of them."""
    for altered in bytes_of(lambda byte: sorted({0, 1, 255} | {byte ^ 1 << bit for bit in range(8)})):
        for image, on_files in altered:
            yield image, 'u64', on_files


def each_cut():
    """Files of both versions cut at each length."""
    for version in (1, 2):
        image = all_kinds(version)
        for length in range(len(image) + 1):
            yield image[:length], 'u64', True


def each_frames():
    """10,000 files of random frames, the same in each run."""
    rng = random.Random('frames')
    for at in range(10000):
        kind = rng.choice(list(TYPES))
        yield random_frames(rng, kind), kind, at % 10 == 0


WORST = 3


def most_memory(image):
    """The most memory that `show` has while it reads an image, in KiB, and its answer."""
    with tempfile.TemporaryFile() as given, tempfile.TemporaryFile() as written:
        given.write(image.hex().encode())
        given.seek(0)
        child = os.posix_spawn(PROGRAM, [PROGRAM, 'show', 'u64'], {}, file_actions=[
            (os.POSIX_SPAWN_DUP2, given.fileno(), 0), (os.POSIX_SPAWN_DUP2, written.fileno(), 1)])
        _, status, usage = os.wait4(child, 0)
        written.seek(0)
        return usage.ru_maxrss, os.waitstatus_to_exitcode(status), written.read()


def each_size(tally):
    """Long files of both versions with a number set to what asks for much: none takes more than three times the memory
    that a sound file of that length takes."""
    for version in (1, 2):
        many = [group([numbers(*range(16))] * 16) for _ in range(1500)]
        sound = header(version, 8) + b''.join(many) + change(version, [(3, numbers(1))]) + b'\0'
        wanted = most_memory(sound)[0]
        for start in (9, 11 + 2, 11 + 6, 11 + 10, len(sound) - len(change(version, [(3, numbers(1))])) + 1):
            for value in (b'\xff' * 4, b'\xff\xff\x0f\0', b'\0' * 4, b'\xff' * 8):
                image = sound[:start] + value + sound[start + len(value):]
                taken, status, written = most_memory(image)
                told = differs(['show', 'u64'], (status, written, b''), answers_of(image, 'u64')[0])
                if taken > WORST * wanted:
                    told = '%d KiB where a sound file of that length takes %d' % (taken, wanted)
                tally.note(told, image.hex().encode())
