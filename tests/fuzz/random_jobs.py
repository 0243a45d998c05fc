"""Random runs of the program without end: files, scripts, lines, words, commands and servers."""

import random

from commands import judge_commands
from follower import judge_script
from program import differs, run
from random_files import frames_image, mutated, random_cells, random_image
from reader import TYPES
from serving import judge_served, random_conversations
from tables import judge_image
from writer import group, header


# ---- scripts

def random_records(rng, most=4):
    return ' '.join(str(rng.choice([rng.randrange(10), rng.randrange(1 << 64)])) for _ in range(rng.randint(1, most)))


def random_step(rng, growing, size):
    place = rng.randrange(size + 2)
    if growing:
        return rng.choice([
            'put %d %s' % (rng.randrange(3), random_records(rng)), 'put 0 %s' % random_records(rng), 'look f', 'look f',
            'look 0', 'view 0', 'settled 1', 'take', 'take', 'log', 'log', 'log', 'log', 'log', 'log;log;log;log', 'home',
            'home', 'home;home;home', 'raise', 'fold', 'close', 'close;look f;log;log;log;log;take;log;log;log;log;gather',
            'look f;take;log;log;log;log', 'gather', 'change 0 1'])
    return rng.choice([
        'share %d %d' % (rng.choice([0, 1, 9, 9, 9, 1048568, 1048569]), rng.choice([0, 1, 2, 2, 3, 64, 65, 65536])), 'share 20 2',
        'change %d %s' % (place, random_records(rng)), 'change %d %s' % (place // 2, random_records(rng, 2)),
        'changes %d %s | %d %s' % (place // 2, random_records(rng, 2), place, random_records(rng, 2)),
        'resize %d %s' % (rng.randrange(12), random_records(rng, 1)), 'resize %d 7' % (size + rng.randrange(3)), 'clear',
        'list', 'list', 'fold', 'fold', 'fold;home;home;home;log;log;log;log', 'home', 'home', 'home', 'log', 'log', 'take'])


def random_script(rng):
    """Steps that mostly fit the phase, and crashes; what stands is listed behind each."""
    script = [rng.choice(['create', 'create 2'])]
    growing, size = False, 4
    for _ in range(rng.randrange(60)):
        if rng.random() < .08:
            script += ['crash ' + rng.choice(['old', 'new', '00', '01', 'ff']), 'open', 'list']
            growing = False
            continue
        steps = random_step(rng, growing if rng.random() < .97 else not growing, size).split(';')
        growing = steps[0].startswith('share ') or growing and steps[-1] != 'gather'
        script += steps
    return script + ['crash ' + rng.choice(['old', 'new', '01', 'ff']), 'open', 'list']


# ---- lines and words

def judge_lines(job):
    """Group lines are written as the file that their frames are, and a line that is none is named."""
    kind, lines = job
    width, _, text = TYPES[kind]
    image = header(1, width) + b''.join(group(growths) for growths in lines) + b'\0'
    given = ''.join(' | '.join(' '.join(map(text, growth)) for growth in growths) + '\n' for growths in lines).encode()
    return differs(['image', kind], run(['image', kind], given), (0, image.hex().encode() + b'\n')), given


def random_line_of_bytes(rng):
    """Lines of a type of bytes, of which the last has a text that is nearly a record: of another length, of upper case, or with
    what stands beside the digits and letters."""
    kind = rng.choice([it for it in TYPES if it.startswith('bytes')])
    text = random_cells(rng, kind, 1)[0].hex()
    at = rng.randrange(len(text))
    wrong = rng.choice([text[:-1], text[:-2], text + text[0], text + text[:2], text + text, '0x' + text[2:],
                        *(text[:at] + sign + text[at + 1:] for sign in 'AFG/:@`gx-')])
    lines = [' '.join(cell.hex() for cell in random_cells(rng, kind, 3)) for _ in range(rng.randrange(3))]
    return kind, lines + [rng.choice(['%s', '%s ' + text, text + ' %s', text + ' | %s']) % wrong]


def random_line_of_numbers(rng):
    """Lines of a type of numbers, of which the last has a text that is nearly a record: a number out of range by one, by bytes or
    by a digit, one with a sign or a zero in front, or with what stands behind it."""
    kind = rng.choice(['u8', 'u16', 'u32', 'u64', 'i32', 'i64'])
    width, _, text = TYPES[kind]
    least, end = (-1 << 8 * width - 1, 1 << 8 * width - 1) if kind[0] == 'i' else (0, 1 << 8 * width)
    some = rng.choice([1, 5, end - 1])
    wrong = rng.choice([*map(str, (end, end + rng.randrange(end), end * 10, end << 64, least - 1, least * 2 - 1)), '-0', '-', '00',
                        '0x1', *(form % some for form in ('+%d', '0%d', '-0%d', '--%d', '%d-', '%d.0', '%d:1'))])
    lines = [' '.join(map(text, random_cells(rng, kind, 3))) for _ in range(rng.randrange(3))]
    return kind, lines + [rng.choice(['%s', '%s 1', '1 %s', '1 | %s']) % wrong]


def random_line_of_floats(rng):
    """Lines of a type of floats, of which the last has a text that is nearly a record: a decimal that is too large, one with what
    stands in no decimal, or the bits of what is no NaN."""
    kind = rng.choice(['f32', 'f64'])
    width, _, text = TYPES[kind]
    infinite, large = {'f32': (0x7f800000, '3.5e38'), 'f64': (0x7ff << 52, '1.8e308')}[kind]
    some = rng.choice(['5', '0.5', '1e9', '.5'])
    no_nan = rng.choice([infinite, rng.randrange(infinite), 1 << 8 * width])
    wrong = rng.choice([large, '1e%d' % rng.randrange(309, 1 << 40), 'NaN:%d' % no_nan, 'NaN:', 'NaN:nan', 'in', 'infinit', 'nann', '-',
                        '.', 'e5', '0x1', *(form % some for form in ('--%s', '+-%s', '%s-', '%se', '%s:1', '%s,5', '%s_5', '%sf', '%s.5.',
                                                                     '%se5.5', '%se5e5', 'x%s'))])
    lines = [' '.join(map(text, random_cells(rng, kind, 3))) for _ in range(rng.randrange(3))]
    return kind, lines + [rng.choice(['%s', '%s 1', '.5 %s', '1 | %s']) % wrong]


def judge_wrong_line(job):
    """The last line, which is none of its type, is named."""
    kind, lines = job
    given = ''.join(line + '\n' for line in lines).encode()
    return differs(['image', kind], run(['image', kind], given), (1, b'refused: line %d\n' % len(lines))), given


def judge_words(job):
    """Whatever words and input there are, the program ends by itself; usage leaves standard output alone."""
    words, given = job
    status, written, told = run(words, given)
    wrong = None
    if status not in (0, 1, 2) or status < 2 and told.count(b'\n') > status:
        wrong = 'status %r, told %r' % (status, told)
    elif status == 2 and (written != b'' or not told.startswith(b'usage: cvec ')):
        wrong = 'usage that is none: %r, %r' % (written, told)
    elif status == 1 and not (written.startswith(b'refused: ') and written.count(b'\n') == 1):
        wrong = 'a refusal that is none: %r' % written
    return wrong and '%r: %s' % (words, wrong), repr(words).encode() + b'\n' + given


def random_words(rng):
    engines, kinds = ['image', 'show', 'play'], list(TYPES)
    words = rng.choices(engines + kinds + ['bytes', 'bytes8', '--help', '-', '--', '', 'x', '--record=1'], k=rng.randrange(4))
    if rng.random() < .6:
        words = [rng.choice(engines), rng.choice(kinds)] + words[:rng.randrange(2)]
    # Of one digit more or less than a record of bytes has, too, and in upper case.
    digits = bytes(rng.choice(b'0123456789abcdef') for _ in range(2 * rng.choice([16, 24, 32, 64]) + rng.choice([0, 0, 0, -1, 1])))
    inputs = [b'', b'\n', b'5\n', b'256\n', b'-2147483649\n', b'5:1\n', b'.5\n', b'1e999\n', b'NaN:5\n', b'1 2 | 3', b'-1\r\n',
              b'zz', b'0', rng.randbytes(rng.randrange(9)), digits, digits + b'\n', digits + b' ' + digits + b'\n', digits.upper() + b'\n',
              random_image(rng)[0].hex().encode(), '\n'.join(random_script(rng)[:5]).encode()]
    return words, rng.choice(inputs)


# ---- commands

FILED = ('create', 'load', 'append', 'check', 'stat', 'list', 'count', 'find', 'set', 'resize', 'clear', 'fold', 'upgrade',
         'copy')


def random_commands(rng):
    kind = rng.choice(list(TYPES))
    text = TYPES[kind][2]
    image = rng.choice([b'', frames_image(rng, kind), frames_image(rng, kind), mutated(rng, frames_image(rng, kind))])
    commands = []
    for _ in range(rng.randint(1, 6)):
        verb, records = rng.choice(FILED), ','.join(map(text, random_cells(rng, kind, 3)))
        words = {'set': [str(rng.randrange(8)), '--records=' + records],
                 'resize': [str(rng.randrange(12)), '--record=' + records.split(',')[0]]}.get(verb, [])
        if verb == 'stat' and rng.random() < .5:
            words = ['--json']
        if verb in ('count', 'find'):
            words = ['--record=' + rng.choice([records.split(',')[0], text(bytes(TYPES[kind][0]))])]
        lines = []
        if verb == 'set' and rng.random() < .5:
            words[-1] = '--input'
        if verb in ('load', 'append') or '--input' in words:
            lines = [' '.join(map(text, random_cells(rng, kind, 3))) for _ in range(rng.randint(0 if verb == 'set' else 1, 4))]
        if verb == 'resize' and rng.random() < .5:
            words.append('--parts')
        if verb == 'copy' and rng.random() < .5:
            words = ['--format=%d' % rng.randint(1, 2)]
        if verb in ('append', 'copy') and rng.random() < .5:
            words = words + ['--block=%d' % rng.randint(1, 5)]
        commands.append((verb, words, lines))
    return kind, image, commands


# ---- all of them

def judge_any(job):
    judge, case = job
    return judge(case)


def random_jobs(seed):
    rng = random.Random(seed)
    while True:
        for _ in range(3):
            yield judge_commands, random_commands(rng)
            yield judge_served, random_conversations(rng)
        for _ in range(20):
            yield judge_image, (*random_image(rng), rng.random() < .3)
        for _ in range(5):
            yield judge_script, random_script(rng)
        kind = rng.choice(list(TYPES))
        lines = [[random_cells(rng, kind, 4) for _ in range(rng.randint(1, 3))] for _ in range(rng.randrange(4))]
        yield judge_lines, (kind, lines)
        yield judge_wrong_line, random_line_of_bytes(rng)
        yield judge_wrong_line, random_line_of_numbers(rng)
        yield judge_wrong_line, random_line_of_floats(rng)
        yield judge_words, random_words(rng)
