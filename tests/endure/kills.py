"""Kills: commands and writers of each language at any moment, or in place of a sync; a server, a follower and who keeps its copy; a
copy and a move beside a writer. What was told stands then, and the program goes on."""

import os
import subprocess
import sys
import tempfile
import time

from program import PROGRAM, TOP
from works import BUILT, SCRATCH, Command, Steps, Writer, goes_on, random_work, read

WEIGHT = 2
NEVER = 10 ** 6
# For how long works run before they are killed, by their names: so long that some come to their end.
spans = {}


def begun(work, folder, more=()):
    environment = {**os.environ, **work.environment, **dict(more)}
    with tempfile.TemporaryFile() as given:
        given.write(work.given)
        given.seek(0)
        return subprocess.Popen(work.words(folder), stdin=given, stdout=subprocess.PIPE, stderr=subprocess.DEVNULL, env=environment)


def killed(rng, work, folder, counts):
    """What a work has told until it was killed, or had ended."""
    span = spans.setdefault(work.name, .02)
    if rng.random() < .5:
        child = begun(work, folder, {'LD_PRELOAD': os.path.join(BUILT, 'syncs.so'), 'KILL_AT': str(rng.randint(1, 20))})
        told = child.communicate(timeout=120)[0]
    else:
        child = begun(work, folder)
        time.sleep(rng.random() * span)
        child.kill()
        told = child.communicate()[0]
        spans[work.name] = min(max(span * (.9 if told else 1.05), .002), .5)
    counts['kills' if child.returncode == -9 else 'ends'] += 1
    return {'answer': told}


def judge_work(rng, counts):
    """A command or calls of a whole vector once, a writer thrice over the same file."""
    work = random_work(rng, NEVER, (Command,) * 3 + (Writer,) * 2 + (Steps,))
    with tempfile.TemporaryDirectory(dir=SCRATCH) as folder:
        work.prepare(folder)
        path = os.path.join(folder, work.file)
        for _ in range(3 if isinstance(work, Writer) else 1):
            told = killed(rng, work, folder, counts)
            wrong = work.wrong(read(path), told)
            if wrong:
                return wrong, repr((work.words(folder), work.given, told, read(path))).encode()
            if isinstance(work, Writer):
                work.next_round(told)
        wrong = goes_on(rng, path, work.kind)
        return wrong, repr((work.words(folder), work.given, told, read(path))).encode()


def judge_beside(rng, counts):
    """Beside a writer its file is copied, by a command that is killed, and gets another name; then the writer is killed too."""
    work = Writer(rng, NEVER, rng.choice(['c', 'cpp', 'rust']))
    with tempfile.TemporaryDirectory(dir=SCRATCH) as folder:
        path, copy, moved = (os.path.join(folder, name) for name in ('file', 'copy', 'moved'))
        child = begun(work, folder)
        first = child.stdout.readline()
        copying = subprocess.Popen([PROGRAM, 'copy', 'u64', path, copy], stdout=subprocess.DEVNULL, stderr=subprocess.DEVNULL)
        time.sleep(rng.random() * .02)
        copying.kill()
        copying.wait()
        os.rename(path, moved)
        time.sleep(rng.random() * .02)
        child.kill()
        told = {'answer': first + child.communicate()[0]}
        counts['kills'] += 2
        wrong = work.wrong(read(moved), told) or work.wrong(read(copy), {}) or goes_on(rng, moved, 'u64')
        return wrong, repr((work.name, work.threads, told)).encode()


def judge_script(name, words, counts, kills):
    """A test of its own that kills a server, or a follower and who keeps its copy."""
    with tempfile.TemporaryDirectory(dir=SCRATCH) as folder:
        done = subprocess.run([sys.executable, os.path.join(TOP, 'tests', name), PROGRAM, folder, *words], capture_output=True, timeout=600)
    counts['kills'] += kills
    return None if done.returncode == 0 else name, done.stdout + done.stderr


def judge(rng, _folder, counts):
    what = rng.random()
    if what < .01:
        return judge_script('serve.py', ['40000'], counts, 10)
    if what < .02:
        return judge_script('following.py', ['5'], counts, 5)
    return judge_beside(rng, counts) if what < .1 else judge_work(rng, counts)
