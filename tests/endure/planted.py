#!/usr/bin/env python3
"""Plants faults, and looks whether the judges of tests/endure find them: planted.py BUILT. Each fault is a line, with what its judge
says; without the fault the same judge finds nothing. The last line is 'N passed, N failed'."""

import os
import random
import subprocess
import sys
import tempfile
from collections import Counter
from contextlib import contextmanager
from unittest.mock import patch

sys.dont_write_bytecode = True
os.environ['ENDURE_BUILT'] = os.path.abspath(sys.argv[1])
HERE = os.path.dirname(os.path.abspath(__file__))
sys.path[:0] = [HERE] + [os.path.join(HERE, '..', it) for it in ('fuzz', 'scripts', 'bindings')]

import big
import crashed
import cuts
import faults
import hostile
import images
import kills
import sanitizers
import works
from serving import ANSWER_HEAD, AWAIT, GROW, head
from works import BUILT
from writer import header


# ---- stand-ins

def put_shell(path, program, lines):
    with open(path, 'w') as file:
        file.write('#!/bin/sh\np="%s"\n%s\n' % (program, lines))
    os.chmod(path, 0o755)


@contextmanager
def stand_in(module, name, lines):
    """Lines of a shell in the place of a program that a module has by this name, which they have as p."""
    with tempfile.TemporaryDirectory() as folder:
        put_shell(os.path.join(folder, 'program'), getattr(module, name), lines)
        with patch.object(module, name, os.path.join(folder, 'program')):
            yield


@contextmanager
def built_anew(name, content, sanitizer=None):
    """Another program in the place of one that is built, and alone there: of C under a sanitizer, or of a shell."""
    with tempfile.TemporaryDirectory() as folder, patch.object(works, 'BUILT', folder), patch.object(hostile, 'BUILT', folder), \
            patch.object(sanitizers, 'BUILT', folder):
        path = os.path.join(folder, name)
        if sanitizer:
            words = ['cc', '-x', 'c', '-', '-O0', '-g', sanitizer, '-lpthread', '-o', path]
            subprocess.run(words, input=content.encode(), check=True)
        else:
            put_shell(path, os.path.join(BUILT, name), content)
        yield


# ---- what is noted of a run, with a fault

def gates_first(calls):
    """Each gate, which is one byte behind the header, is written before the body that it stands in front of."""
    for at in range(2, len(calls)):
        kind, words, given = calls[at]
        if kind == 'write' and len(given) == 1 and words[1] != '0':
            calls[at], calls[at - 2] = calls[at - 2], calls[at]
    return calls


def told_too_much(calls):
    """Of each second answer, which says how many growths are settled, it says one more."""
    turn = 0
    for at, (kind, words, given) in enumerate(calls):
        answers = []
        for status, count, first, second in ANSWER_HEAD.iter_unpack(given if kind == 'tell' else b''):
            answers.append(ANSWER_HEAD.pack(status, count, first + turn % 2, second))
            turn += 1
        if answers:
            calls[at] = kind, words, b''.join(answers)
    return calls


def told_too_soon(calls):
    """What is told is told before the sync in front of it."""
    for at in range(4, len(calls)):
        if calls[at][0] == 'answer':
            calls.insert(at - 2, calls.pop(at))
    return calls


def noted_with(change):
    def changed(work, folder, noted=cuts.noted):
        status, calls = noted(work, folder)
        return status, change(calls)
    return patch.object(cuts, 'noted', changed)


def gate_first(self, k, before, after):
    gate, body = self.file.gate, self.file.bytes[self.file.gate + 1:]
    if k in (1, 3):
        self.disk.write(*[(gate, b'\1'), (gate + 1, body)][k // 2])
    images.follow.Run.commit_calls(self, k, before, after)


class Conversation(works.Served):
    """One client that grows and waits four times."""

    def __init__(self, _rng):
        turn = [(head(GROW, 1) + bytes(8), GROW, [bytes(8)]), (head(AWAIT), AWAIT, None)]
        self.image, self.talks, self.environment = header(1, 8) + b'\0', [turn * 4], {'SEATS': '1'}


# ---- the faults

OVERFLOW = '#include <stdlib.h>\nint main(int n, char **v) { char *at = malloc(4); (void)v; return at[n + 5]; }'
RACE = """#include <pthread.h>
static int at;
static void *run(void *it) { for (int k = 0; k < 1000; k++) at++; return it; }
int main(void) { pthread_t it; pthread_create(&it, 0, run, 0); run(0); pthread_join(it, 0); return at < 0; }"""


def whole(module):
    return lambda rng, counts: module.judge(rng, None, counts)


def cut(make):
    return lambda rng, counts: cuts.judge(rng, None, counts, work=make(rng))


def kill(make):
    def judge(rng, counts):
        with patch.object(kills, 'random_work', lambda rng, *_: make(rng)):
            return kills.judge_work(rng, counts)
    return judge


def fault(make, more):
    def judge(rng, counts):
        with patch.object(faults, 'random_work', lambda rng, *_: make(rng)), patch.object(faults, 'fault_for', lambda *_: (more, None)):
            return faults.judge(rng, None, counts)
    return judge


def growths(_rng, _counts):
    with tempfile.TemporaryDirectory() as folder:
        return big.judge_growths(big.by_command, folder), b''


def command(name):
    return lambda rng: works.Command(rng, name)


def writer(rng):
    return works.Writer(rng, 12, 'c')


WRITE_FAILS = {'LD_PRELOAD': os.path.join(works.BUILT, 'calls.so'), 'CALLS_FAIL': 'pwrite:1'}
PLANTS = [
    ('images: a sync that does nothing', lambda: patch.object(crashed.Disk, 'sync', lambda self: None), whole(images)),
    ('images: a gate before its body', lambda: patch.object(images.Traced, 'commit_calls', gate_first), whole(images)),
    ('images: a torn growth is shown', lambda: stand_in(images, 'RUNNER', '"$p" | sed "/^images/s/ [0-9]*$//"'), whole(images)),
    ('images: a stopped disk keeps too little', lambda: stand_in(images, 'RUNNER', '"$p" | sed "/^stop/s/.*; /stop 0 -> /"'), whole(images)),
    ('cuts: a sync that does nothing', lambda: patch.dict(os.environ, CALLS_DROP='1'), cut(command('append'))),
    ('cuts: a gate before its body', lambda: noted_with(gates_first), cut(command('append'))),
    ('cuts: a told count is one too high', lambda: noted_with(told_too_much), cut(Conversation)),
    ('cuts: a growth is told before its sync', lambda: noted_with(told_too_soon), cut(writer)),
    ('cuts: a torn growth is shown', lambda: stand_in(cuts, 'RUNNER', '"$p" | sed "/^images/s/ [^ ]*$//"'), cut(command('append'))),
    ('kills: a growth too much is told', lambda: built_anew('writer_c', 'echo 0 999999 0; exec "$p" "$@"'), kill(writer)),
    ('kills: a torn growth is shown', lambda: stand_in(works, 'PROGRAM', '"$p" "$@"; s=$?; truncate -s -3 "$3"; exit $s'), kill(command('append'))),
    ('faults: a write that failed is told as done', lambda: stand_in(works, 'PROGRAM', '"$p" "$@" >/dev/null; echo ok'),
     fault(command('set'), WRITE_FAILS)),
    ('faults: a refusal leaves half of a change', lambda: stand_in(works, 'PROGRAM', '"$p" "$@"; s=$?; truncate -s -3 "$3"; exit $s'),
     fault(command('append'), WRITE_FAILS)),
    ('sanitizers: an overflow', lambda: built_anew('random_calls_address,undefined', OVERFLOW, '-fsanitize=address'), whole(sanitizers)),
    ('sanitizers: a race', lambda: built_anew('random_calls_thread', RACE, '-fsanitize=thread'), whole(sanitizers)),
    ('hostile: an overflow of the reader in C', lambda: built_anew('driver', OVERFLOW, '-fsanitize=address'), whole(hostile)),
    ('hostile: a wrong record of C', lambda: built_anew('driver', '"$p" "$@" | sed "s/^\\([0-9]*:.*\\)[0-9]$/\\1x/"'), whole(hostile)),
    ('hostile: a fault of another place', lambda: built_anew('driver', '"$p" "$@" | sed "s/; at \\([0-9]*\\) cause/; at 1\\1 cause/"'), whole(hostile)),
    ('big: a growth too little', lambda: patch.object(big, 'by_command', lambda path: big.grown(path, big.ROOM)), growths),
]


def finding(judge):
    """The first seed by which the judge finds something, and what."""
    for seed in range(40):
        wrong = judge(random.Random(seed), Counter())[0]
        if wrong:
            return seed, wrong
    return None, None


def main():
    failed = 0
    for name, plant, judge in PLANTS:
        with plant():
            seed, wrong = finding(judge)
        without = None if seed is None else judge(random.Random(seed), Counter())[0]
        failed += seed is None or without is not None
        print('%s: %s%s' % (name, 'NOT FOUND' if seed is None else ' '.join(wrong.split())[:150],
                            '; FOUND TOO WITHOUT IT: ' + without if without else ''), flush=True)
    print('%d passed, %d failed' % (len(PLANTS) - failed, failed))
    return failed > 0


if __name__ == '__main__':
    sys.exit(main())
