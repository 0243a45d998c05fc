"""Runs of the built programs, and what is noted of them."""

import multiprocessing
import os
import subprocess
import tempfile
import time


TOP = os.path.dirname(os.path.dirname(os.path.dirname(os.path.abspath(__file__))))
PROGRAM = os.path.join(TOP, 'crates/cvec/out/cvec')
# What runs scripts, as tests/scripts/run does.
RUNNER = os.environ.get('PLAY_TESTS') or os.path.join(TOP, 'crates/play_tests/out/play_tests')


def run(words, given=b'', program=PROGRAM, limit=60, **options):
    """Its status, what it writes, and what it writes to standard error. A status below 0 is a signal."""
    try:
        done = subprocess.run([program, *words], input=given, capture_output=True, timeout=limit, close_fds=False,
                              **options)
    except subprocess.TimeoutExpired:
        return 'still running', b'', b''
    return done.returncode, done.stdout, done.stderr


def build_runner():
    """Builds what runs scripts, where it is older than its sources."""
    if not os.environ.get('PLAY_TESTS') and subprocess.run([os.path.join(TOP, 'tools/current'), 'play_tests']).returncode:
        subprocess.run([os.path.join(TOP, 'build'), 'play_tests'], stdin=subprocess.DEVNULL, stdout=2, check=True)


# What usage has to name.
COMMANDS = ('image', 'show', 'play', 'create', 'load', 'append', 'serve', 'check', 'stat', 'list', 'count', 'find', 'set',
            'resize', 'clear', 'fold', 'upgrade', 'copy')


def lacking():
    """The commands that the program's usage doesn't name."""
    named = [line.split(' ')[0] for line in run(['help'])[1].decode().splitlines()]
    return [command for command in COMMANDS if command not in named]


class Tally:
    """How many passed, and in which folder what didn't is kept."""

    def __init__(self):
        self.passed, self.failed, self.folder = 0, 0, None

    def note(self, told, kept):
        """`told` says what is wrong, or is None."""
        if told is None:
            self.passed += 1
            return
        self.failed += 1
        if self.folder is None:
            self.folder = tempfile.mkdtemp(prefix='cvec-fuzz-')
        if self.failed <= 100:
            name = os.path.join(self.folder, str(self.failed))
            with open(name, 'wb') as file:
                file.write(kept)
            with open(name + '.told', 'w') as file:
                file.write(told + '\n')
        if self.failed <= 10:
            print('FAILED: %s' % told)

    def end(self):
        if self.folder is not None:
            print('what failed is kept in %s' % self.folder)
        print('%d passed, %d failed' % (self.passed, self.failed))
        return 0 if self.failed == 0 and self.passed > 0 else 1


def differs(words, found, wanted):
    """Says how, or nothing. Beside a refusal standard error may have one sentence."""
    status, written, told = found
    if (status, written) == wanted and told.count(b'\n') <= status:
        return None
    return '%s: wanted %r, found %r' % (' '.join(words), wanted, found)


def judge_all(judge, jobs, tally, until=None):
    """Judges jobs side by side, until a moment."""
    with multiprocessing.Pool() as pool:
        for told, kept in pool.imap_unordered(judge, jobs, chunksize=16):
            tally.note(told, kept)
            if until is not None and time.monotonic() >= until:
                break
        pool.terminate()
