"""Programs of C and C++ under sanitizers: random calls of 1 to 16 threads, phases that fill, what is lent for long, forks, and a close
beside readers. A complaint ends a program, and its seed is kept."""

import os
import subprocess
import tempfile

from program import TOP
from works import BUILT, SCRATCH

WEIGHT = 2
LENT = ('pieces', 'stays', 'counts', 'blocks', 'blocks_refused', 'blocks_renewed', 'goes_on', 'full', 'full_by_blocks')
LENT_CPP = ('many_growths', 'early_references', 'lent_anew', 'room_for_eight', 'forked')


def words_of(rng, path):
    """A program that is built, with its words. Where a sanitizer isn't told of what the library does, what forks or fills phases is
    seen by the other one."""
    name = rng.choice(sorted(it for it in os.listdir(BUILT) if it.endswith(('_address,undefined', '_thread'))))
    program, _, sanitizer = name.rpartition('_')
    return [name, *{'random_calls': [path, str(rng.randrange(1 << 32)), '2'],
                    'lent': [rng.choice(LENT), path],
                    'cpp_threads': [path, str(rng.randint(1, 12)), str(rng.randint(100, 3000)), str(rng.randint(1, 4))],
                    'cpp_lent': ['early_references' if sanitizer == 'thread' else rng.choice(LENT_CPP), path]}[program]]


def judge(rng, _folder, counts):
    with tempfile.TemporaryDirectory(dir=SCRATCH) as folder:
        words = words_of(rng, os.path.join(folder, 'file'))
        environment = {**os.environ, 'TSAN_OPTIONS': 'suppressions=%s' % os.path.join(TOP, 'tests/threads/suppressed.txt')}
        try:
            done = subprocess.run([os.path.join(BUILT, words[0]), *words[1:]], capture_output=True, timeout=600, env=environment)
        except subprocess.TimeoutExpired:
            return '%s is still running' % words, b''
    counts['runs'] += 1
    counts[words[0]] += 1
    wrong = done.returncode != 0 or b'Sanitizer' in done.stderr or b'runtime error' in done.stderr
    return '%s ended with %s' % (words, done.returncode) if wrong else None, done.stdout + done.stderr
