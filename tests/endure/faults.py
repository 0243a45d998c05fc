"""Faults: each call of the system refused or cut, requests for memory refused, full devices and limits, of commands, writers of each
language and calls of a whole vector. A work that fails ends by itself; what it told stands, and the program goes on."""

import os
import resource
import signal
import subprocess
import tempfile
from contextlib import contextmanager

from memory import compile_refuser
from works import BUILT, SCRATCH, Command, Steps, Writer, goes_on, random_work, read

WEIGHT = 2
CALLS = ('read', 'write', 'pread', 'pwrite', 'fdatasync', 'fsync', 'statx', 'flock', 'thread')
# A fault that a program can't answer ends it by one of these: where memory is refused to Rust or C++, or a file may grow no more.
ENDS = {-signal.SIGABRT, -signal.SIGXFSZ, -signal.SIGTRAP}
LIMITS = {'files': (resource.RLIMIT_NOFILE, (3, 12)), 'space': (resource.RLIMIT_AS, (1 << 20, 1 << 31)),
          'stack': (resource.RLIMIT_STACK, (1 << 19, 1 << 21)), 'length': (resource.RLIMIT_FSIZE, (1, 4000))}


def refuser():
    """The library that refuses a request for memory."""
    if not os.path.exists(os.path.join(BUILT, 'refuser.so')):
        compile_refuser(BUILT)
    return os.path.join(BUILT, 'refuser.so')


def fault_for(rng, work):
    """The environment, and the limit, of a random fault."""
    how = rng.choice(['call', 'call', 'call', 'part', 'memory', *LIMITS])
    calls = os.path.join(BUILT, 'calls.so')
    if how == 'call':
        return {'LD_PRELOAD': calls, 'CALLS_FAIL': '%s:%d' % (rng.choice(CALLS), rng.randint(1, rng.choice([3, 30])))}, None
    if how == 'part':
        return {'LD_PRELOAD': calls, 'CALLS_PART': str(rng.choice([1, 3, 64, 500]))}, None
    if how == 'memory' and 'python' not in work.name:
        return {'LD_PRELOAD': refuser(), 'REFUSE': str(rng.randint(1, rng.choice([30, 400])))}, None
    kind, (least, most) = LIMITS[how if how in LIMITS else 'length']
    return {}, (kind, rng.randint(least, most))


@contextmanager
def device(rng):
    """A folder, of which every fourth is a device of its own that is soon full, where one may be mounted."""
    with tempfile.TemporaryDirectory(dir=SCRATCH) as folder:
        words = ['mount', '-t', 'tmpfs', '-o', 'size=%dk' % rng.choice([8, 16, 64]), 'none', folder]
        is_small = rng.random() < .25 and subprocess.run(words, capture_output=True).returncode == 0
        try:
            yield folder, is_small
        finally:
            if is_small:
                subprocess.run(['umount', folder], check=True)


def limited(limit):
    if limit:
        resource.setrlimit(limit[0], (limit[1], limit[1]))


def judge(rng, _folder, counts):
    work = random_work(rng, rng.choice([20, 300]), (Command,) * 4 + (Writer,) * 2 + (Steps,))
    with device(rng) as (folder, is_small):
        work.prepare(folder)
        more, limit = ({}, None) if is_small else fault_for(rng, work)
        path = os.path.join(folder, work.file)
        try:
            done = subprocess.run(work.words(folder), input=work.given, capture_output=True, timeout=120,
                                  env={**os.environ, **work.environment, **more}, preexec_fn=lambda: limited(limit))
            status, told = done.returncode, {'answer': done.stdout}
        except subprocess.TimeoutExpired:
            status, told = 'running', {}
        counts['runs'] += 1
        counts['failed'] += status != 0
        wrong = work.wrong(read(path), told, fails=status != 0)
        if status == 'running' or status < 0 and status not in ENDS:
            wrong = wrong or '%s ended with %s' % (work.name, status)
        if not is_small:
            wrong = wrong or goes_on(rng, path, work.kind)
        return wrong, repr((work.words(folder), work.given, more, limit, is_small, status, told, read(path))).encode()
