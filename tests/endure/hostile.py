"""Hostile files: random ones, mutated ones and frames of anything, read by the program and, under sanitizers, by the library of C:
each answers as the reader of files does."""

import os
import subprocess
import tempfile

from random_files import random_image
from reader import Fault, File
from tables import judge_image
from works import BUILT, SCRATCH

WEIGHT = 2
FILES = 50
# By their numbers in docs/file/format.md.
CAUSES = ('no gate', 'short frame', 'kind', 'too large', 'layout', 'runs', 'range', 'unfolded', 'fold count', 'too long', 'bad record')


def lines_of(image, kind, path):
    return ['> put %s %s' % (path, image.hex()), '> open-to-read a %s %s' % (kind, path), '> read a 0', '> frames %s %s' % (kind, path),
            '> close a']


def is_refused(fault, answers):
    """Whether C refuses a file for what is wrong with it. What is no record it may find as it reads."""
    if not fault.startswith('damaged'):
        return answers[0].startswith('refused')
    place, _, cause = fault.removeprefix('damaged at ').partition(': ')
    number = next(number for number, name in enumerate(CAUSES, 1) if cause.startswith(name))
    told = '; at %s cause %d ' % (place, number)
    return told in answers[0] or cause == 'bad record' and answers[1].startswith('refused')


def wrong_in_c(image, kind, answers):
    """What is wrong with what C answers of a file: to its opening, and to a read where that is done."""
    try:
        file = File(image, kind)
    except Fault as fault:
        return None if is_refused(str(fault), answers) else 'C answers %r to a file that is %s' % (answers[:2], fault)
    texts = [file.text(cell) for cell in file.cells]
    wanted = ' '.join(['%d:' % len(texts)] + texts)
    # A reader beside a writer supposes that what is folded stands in its home bytes, and C tells floats by their bits.
    compares = file.folded == 0 and kind not in ('f32', 'f64')
    if answers[0] != 'done' or compares and answers[1] != wanted:
        return 'C answers %r, not %r' % (answers[:2], wanted)
    return None


def judge_in_c(found):
    """What C answers of files, a process for all of them."""
    with tempfile.TemporaryDirectory(dir=SCRATCH) as folder:
        path, table = os.path.join(folder, 'file'), os.path.join(folder, 'table')
        blocks = [lines_of(image, kind, path) for image, kind in found]
        with open(table, 'w') as file:
            file.write('\n'.join(sum(blocks, [])) + '\n')
        done = subprocess.run([os.path.join(BUILT, 'driver'), table], capture_output=True, timeout=600)
    if done.returncode != 0 or done.stderr:
        return 'C ended with %s: %s' % (done.returncode, done.stderr.decode(errors='replace')[:3000])
    answers = iter(done.stdout.decode().splitlines())
    told = []
    for line in answers:
        if line.startswith('> put '):
            told.append([])
        elif not line.startswith('> '):
            told[-1].append(line)
    return next(filter(None, (wrong_in_c(*one, answer) for one, answer in zip(found, told))), None)


def judge(rng, _folder, counts):
    found = [random_image(rng) for _ in range(FILES)]
    counts['files'] += FILES
    kept = '\n'.join('%s %s' % (kind, image.hex()) for image, kind in found).encode()
    wrong = judge_in_c(found)
    for image, kind in found[::10]:
        wrong = wrong or judge_image((image, kind, True))[0]
    return wrong, kept
