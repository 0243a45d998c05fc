"""Commands over a file, foreseen by what the reader finds in it."""

import os
import tempfile

from memory import is_memory_refused, run_refused
from outlines import stat_differs
from program import differs, run
from reader import TYPES, Fault, File, answers_of
from writer import all_kinds, group, header


# What makes a new file of one that it reads, and what writes the records alone.
COPYING = ('upgrade', 'copy')
LISTING = ('list', 'follow')


def texts_in(file):
    return [file.text(cell) for cell in file.cells]


def may_be_made_over(kind, words, image):
    """Nothing stands there but what a stopped creation leaves: each byte 0 or that of the empty file, whose gate isn't open yet."""
    made = header(2 if '--format=2' in words else 1, TYPES[kind][0]) + b'\0'
    is_shut = len(image) < 2 or image[0] != 1
    return len(image) <= len(made) and is_shut and all(byte in (0, its) for byte, its in zip(image, made))


def foresee(kind, verb, words, lines, image):
    """What a command answers, and the records that its file has then, or none where it stays as it is."""
    try:
        file = File(image, kind)
    except Fault as fault:
        if verb == 'create' and may_be_made_over(kind, words, image):
            return 'created', []
        return 'refused: ' + ('exists' if verb == 'create' else 'old %s' % fault if verb in COPYING else str(fault)), None
    texts, live = texts_in(file), len(file.changes) - file.folded
    value = next((word.split('=')[1] for word in words if '=' in word), '')
    if verb == 'create':
        return 'refused: exists', None
    if verb == 'check':
        return answers_of(image, kind)[1][1].decode()[:-1], None
    if verb in LISTING:
        return '\n'.join(texts), None
    if verb == 'count':
        return str(texts.count(value)), None
    if verb == 'find':
        return str(texts.index(value)) if value in texts else 'none', None
    if verb == 'set':
        start, records = int(words[0]), value.split(',')
        if '--input' in words:
            records = [record for line in lines for record in line.split(' ')]
        if not records:
            return 'ok', None
        if start + len(records) > len(texts):
            return 'refused: out of range', None
        return 'ok', texts[:start] + records + texts[start + len(records):]
    if verb in ('resize', 'clear'):
        length = int(words[0]) if verb == 'resize' else 0
        if length < len(texts) and live > 0:
            return 'refused: unfolded', None
        return 'ok', texts[:length] + [value] * (length - len(texts))
    if verb == 'fold':
        return 'folded %d' % live, texts
    if verb == 'upgrade':
        return ('refused: not version 1' if file.version == 2 else 'upgraded size %d' % len(texts)), None
    if verb == 'copy':
        return 'copied size %d' % len(texts), None
    grown = texts + [record for line in lines for record in line.split(' ')]
    block = int(value) if words else 1
    return '%sed %d growths, size %d' % (verb, -(-len(lines) // block), len(grown)), grown


def read_file(name):
    with open(name, 'rb') as file:
        return file.read()


def holds(image, kind, texts, folded):
    try:
        file = File(image, kind)
    except Fault:
        return False
    return texts_in(file) == texts and (not folded or file.folded == len(file.changes))


def is_copied(name, kind, verb, words, image):
    """The new file has the records in growths of as many as the words say, or in one."""
    file, asked = File(image, kind), dict(word[2:].split('=') for word in words)
    version = 2 if verb == 'upgrade' else int(asked.get('format', file.version))
    block = int(asked.get('block', len(file.cells) + 1))
    growths = (file.cells[at:at + block] for at in range(0, len(file.cells), block))
    made = header(version, TYPES[kind][0]) + b''.join(group([growth]) for growth in growths) + b'\0'
    return os.path.exists(name) and read_file(name) == made


def command_words(verb, kind, name, words):
    if verb == 'stat':
        return [verb, name, *words]
    return [verb, kind, name, *([name + '.new'] if verb in COPYING else []), *words]


def judge_outcome(kind, name, command, before, found):
    """What is wrong with an answer of a command and with what it left of its file, or nothing."""
    verb, words, lines = command
    if verb == 'stat':
        told = stat_differs([verb, *words], found, before)
        return told if read_file(name) == before else told or 'stat wrote the file'
    answer, texts = foresee(kind, verb, words, lines, before)
    written = answer + '\n' if answer or verb not in LISTING else ''
    told = differs([verb, *words], found, (int(answer.startswith('refused: ')), written.encode()))
    after = read_file(name)
    if texts is None and after != before:
        told = told or '%s wrote the file' % verb
    if texts is not None and not holds(after, kind, texts, verb == 'fold'):
        told = told or '%s left other records' % verb
    if answer.startswith(('upgraded', 'copied')) and not is_copied(name + '.new', kind, verb, words, before):
        told = told or 'the new file of %s has other bytes' % verb
    if os.path.exists(name + '.new'):
        os.remove(name + '.new')
    return told


def judge_commands(job):
    kind, image, commands = job
    kept = '%s\n%s\n%r\n' % (kind, image.hex(), commands)
    with tempfile.TemporaryDirectory() as folder:
        name = os.path.join(folder, 'file')
        with open(name, 'wb') as file:
            file.write(image)
        for command in commands:
            verb, words, lines = command
            before = read_file(name)
            found = run(command_words(verb, kind, name, words), ''.join(line + '\n' for line in lines).encode())
            told = judge_outcome(kind, name, command, before, found)
            if told is not None:
                return told, kept.encode()
    return None, kept.encode()


# ---- memory that is refused to them

def judge_refused_command(job):
    """A command answers what it does with ample memory, or Memory, and then its file holds what it did; but the lines that
    were grown stay, and what a resize has appended in parts. With ample memory it then does its work."""
    library, (image, command), number = job
    verb, words, lines = command
    given = ''.join(line + '\n' for line in lines).encode()
    with tempfile.TemporaryDirectory() as folder:
        name = os.path.join(folder, 'file')
        with open(name, 'wb') as file:
            file.write(image)
        found, refused = run_refused(library, number, command_words(verb, 'u64', name, words), given)
        kept = ('REFUSE=%d %s %s\n' % (number, command, image.hex())).encode()
        may_stop = {'load': b'refused: unsettled ', 'append': b'refused: unsettled ',
                    **dict.fromkeys(COPYING, (b'refused: old memory\n', b'refused: new memory\n'))}.get(verb, b'refused: memory\n')
        if not is_memory_refused(found) and not found[1].startswith(may_stop):
            return judge_outcome('u64', name, command, image, found), refused, kept
        if os.path.exists(name + '.new'):
            os.remove(name + '.new')
        after, told = read_file(name), None
        if verb in ('load', 'append') or '--parts' in words:
            grown = foresee('u64', verb, words, lines, image)[1]
            texts = texts_in(File(after, 'u64'))
            told = None if texts == grown[:len(texts)] else 'request %d of %s: %r' % (number, verb, texts[:99])
        elif after != image and (verb != 'create' or len(after) > 1) and not holds(after, 'u64', texts_in(File(image, 'u64')), False):
            told = 'request %d of %s: another file' % (number, verb)
        if told is None and verb not in ('load', 'append'):
            again = run(command_words(verb, 'u64', name, words), given)
            told = judge_outcome('u64', name, command, after, again)
        return told, refused, kept


def command_tables(_folder):
    commands = [('create', [], []), ('load', [], ['1 2', '3']), ('append', [], ['1 2', '3']), ('check', [], []),
                ('list', [], []), ('follow', ['--once'], []), ('count', ['--record=9'], []), ('find', ['--record=9'], []),
                ('set', ['1', '--records=4,5'], []), ('set', ['1', '--input'], ['4', '5']), ('resize', ['9', '--record=3'], []),
                ('resize', ['9', '--record=3', '--parts'], []), ('fold', [], []),
                ('upgrade', [], []), ('copy', ['--block=2'], []), ('stat', [], [])]
    for command in commands:
        yield judge_refused_command, (b'' if command[0] == 'create' else all_kinds(1, home=7), command)
