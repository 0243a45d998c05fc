"""Memory that is refused: to `play`, `image` and `show`."""

import multiprocessing
import os
import shutil
import subprocess
import sys
import tempfile

from follower import follow
from program import PROGRAM, run
from reader import answers_of
from writer import all_kinds, group, header, numbers


# ---- a library that refuses a request

REFUSER = r'''
typedef unsigned long size_t;
extern void *__libc_malloc(size_t), *__libc_calloc(size_t, size_t), *__libc_realloc(void *, size_t);
extern void *__libc_memalign(size_t, size_t);
extern char *getenv(const char *);
extern long write(int, const void *, size_t);
extern int *__errno_location(void);
static long wanted = -1, seen;
static int is_refused(void) {
    if (wanted < 0) {
        long n = 0;
        for (char *digit = getenv("REFUSE"); digit && *digit; digit++) n = 10 * n + *digit - '0';
        wanted = n;
    }
    if (__atomic_add_fetch(&seen, 1, __ATOMIC_SEQ_CST) != wanted) return 0;
    write(9, "refused", 7);
    *__errno_location() = 12;
    return 1;
}
void *malloc(size_t n) { return is_refused() ? 0 : __libc_malloc(n); }
void *calloc(size_t n, size_t m) { return is_refused() ? 0 : __libc_calloc(n, m); }
void *realloc(void *p, size_t n) { return is_refused() ? 0 : __libc_realloc(p, n); }
void *memalign(size_t a, size_t n) { return is_refused() ? 0 : __libc_memalign(a, n); }
void *aligned_alloc(size_t a, size_t n) { return is_refused() ? 0 : __libc_memalign(a, n); }
int posix_memalign(void **p, size_t a, size_t n) {
    if (is_refused() || !(*p = __libc_memalign(a, n))) return 12;
    return 0;
}
'''


def compile_refuser(folder):
    """A library that refuses a process its request for memory number $REFUSE, and says so on descriptor 9. It is built by
    the machine's compiler of C, or the toolchain's."""
    source, library = os.path.join(folder, 'refuser.c'), os.path.join(folder, 'refuser.so')
    with open(source, 'w') as file:
        file.write(REFUSER)
    kit = os.path.dirname(os.path.dirname(os.path.realpath(shutil.which('rt') or '/')))
    for compiler in (shutil.which('cc'), os.path.join(kit, 'toolchain/bin/clang')):
        if compiler and os.path.exists(compiler):
            words = [compiler, '-shared', '-fPIC', '-O1', '-nostdlib', '-w', '-o', library, source]
            linker = [] if compiler.endswith('cc') else ['-fuse-ld=lld']
            if subprocess.run(words + linker, capture_output=True).returncode == 0:
                return library
    sys.exit('fuzz: there is no compiler for the library that refuses memory')


REFUSED = 9


def begin_refusing():
    """A worker's descriptor on which the refuser tells that it refused."""
    file = tempfile.TemporaryFile()
    os.dup2(file.fileno(), REFUSED)
    os.set_inheritable(REFUSED, True)


def run_refused(library, number, words, given=b'', program=PROGRAM):
    """A run whose request for memory of this number is refused, and whether there was one."""
    os.ftruncate(REFUSED, 0)
    os.lseek(REFUSED, 0, os.SEEK_SET)
    found = run(words, given, program, env={'LD_PRELOAD': library, 'REFUSE': str(number)})
    return found, os.fstat(REFUSED).st_size > 0


# ---- scripts and other runs

# Each call that takes memory, made again where it may have been refused.
MEMORY_SCRIPTS = [
    # growths past the first bucket, settled and taken back, and commands on what they leave
    'create;create;share 12 2;share 12 2;put 0 1 2;put 0 1 2;put 1 3;put 0 4;put 0 5;put 0 6;put 0 7;put 0 8;'
    'put 0 9;put 0 9;put 1 11 12;look 0;look f;take;take;log;log;log;log;raise;settled 0;view 1;close;put 0 1;gather;gather;'
    'list;resize 20 4;resize 20 4;change 3 5 6 7;change 3 5 6 7;fold;fold;home;home;home;home;log;log;log;log;home;'
    'resize 2 0;resize 2 0;list;clear;clear;list;crash old;open;open;list',
    # version 2, runs, a phase over a fold, two groups, and a crash within a commit
    'create 2;create 2;resize 9 1;resize 9 1;changes 0 7 8 | 4 9;changes 0 7 8 | 4 9;fold;fold;home;share 3 1;share 3 1;'
    'put 0 5;put 0 5;look f;take;take;log;home;home;log;log;log;home;home;put 0 6;look f;take;take;log;log;log;crash new;'
    'open;open;list;change 8 3;change 8 3;fold;fold;home;home;home;log;log;log;log;list;crash ff;open;list',
]


def ask_again(script, refused):
    return [line for at, line in enumerate(script) if at != refused]


class Ample:
    """What a script answers where no memory is refused, and without one of its lines; and what the follower finds wrong."""
    known = {}

    @classmethod
    def of(cls, script, without=None):
        lines = tuple(ask_again(script, without))
        if lines not in cls.known:
            written = run(['play', 'u64'], '\n'.join(lines).encode())[1]
            cls.known[lines] = written.decode().split('\n'), follow(lines, written)
        return cls.known[lines]


def is_memory_refused(found):
    return found[:2] == (1, b'refused: memory\n') and found[2].count(b'\n') <= 1


def judge_refused_script(job):
    """Each answer is the one with ample memory, or Memory, and then all that follows is as if that line weren't there."""
    library, script, number = job
    found, refused = run_refused(library, number, ['play', 'u64'], '\n'.join(script).encode())
    if not refused:
        return None, False, None
    answers = found[1].decode().split('\n')
    kept = ('REFUSE=%d\n%s\n' % (number, '\n'.join(script))).encode()
    if is_memory_refused(found):
        return None, True, kept
    if found[0] != 0 or found[2] != b'':
        return 'request %d: ended with %r' % (number, found), True, kept
    if 'refused memory' in answers:
        at = answers.index('refused memory')
        wanted, wrong = Ample.of(script, at)
        told = wrong if ask_again(answers, at) == wanted else 'request %d, line %d: wanted %r, found %r' % (
            number, at + 1, wanted, answers)
    elif any(answer.startswith('refused disk ') for answer in answers):
        told = follow(script, found[1], faults=True)
    else:
        wanted, wrong = Ample.of(script)
        told = wrong if answers == wanted else 'request %d: other answers %r' % (number, answers)
    return told, True, kept


def judge_refused_run(job):
    """A run answers what it does with ample memory, or Memory alone."""
    library, (program, words, given, wanted), number = job
    found, refused = run_refused(library, number, words, given, program)
    if not refused:
        return None, False, None
    # Floats are turned as they are read, which takes memory too.
    is_unread = words[1] == 'f64' and found == (1, b'refused: input\n', b'')
    is_right = found == wanted or is_memory_refused(found) or is_unread
    told = None if is_right else 'request %d of %s: %r' % (number, ' '.join(words), found)
    return told, True, ('REFUSE=%d %s\n' % (number, ' '.join(words))).encode() + given


def refuse_each(judge, case, library, pool, tally):
    """Refuses the first request of a run, the second and so on, until a run meets none."""
    for first in range(1, 1 << 20, 64):
        judged = pool.map(judge, [(library, case, number) for number in range(first, first + 64)], chunksize=4)
        for told, refused, kept in judged:
            if refused:
                tally.note(told, kept)
        if not all(refused for _, refused, _ in judged):
            return


def refusing(tally, tables):
    with tempfile.TemporaryDirectory() as folder, multiprocessing.Pool(initializer=begin_refusing) as pool:
        library = compile_refuser(folder)
        for judge, case in tables(folder):
            refuse_each(judge, case, library, pool, tally)


def memory_tables(_folder):
    for script in MEMORY_SCRIPTS:
        yield judge_refused_script, script.split(';')
    image = header(1, 8) + group([numbers(1, 2), numbers(3)]) + group([numbers(4)]) + b'\0'
    runs = [('image', b'1 2 | 3\n4\n', (0, image.hex().encode() + b'\n')), ('image', b'1\n05\n', (1, b'refused: line 2\n'))]
    runs += [('show', it.hex().encode(), answers_of(it, 'u64')[0]) for it in (all_kinds(1), all_kinds(2))]
    for word, given, wanted in runs:
        yield judge_refused_run, (PROGRAM, [word, 'u64'], given, (*wanted, b''))
    # Floats that are read as what they are, or not at all: 5 is also a number.
    floats = header(1, 8) + group([numbers(4617315517961601024, 4619567317775286272), numbers(4602678819172646912)]) + b'\0'
    yield judge_refused_run, (PROGRAM, ['image', 'f64'], b'5 7 | .5\n', (0, floats.hex().encode() + b'\n', b''))
    yield judge_refused_run, (PROGRAM, ['show', 'f64'], floats.hex().encode(), (0, b'5.0\n7.0\n0.5\n', b''))
