"""What `stat` answers of an image: docs/use/commands.md, by the reader of files. Of an unsound one it sees the fault where
the first bytes of a frame show it, and else goes on."""

import json

from reader import Fault, File, damaged, u32


class Outlines(File):
    """The frames of an image of any records. `maybe` has each fault at which the page lets `stat` stop or go on: a group or
    a change whose length has room for fewer records than it has growths or runs. With it are the records before it."""

    def __init__(self, image):
        self.image = image
        self.width = max(1, image[9] + 256 * image[10]) if len(image) > 10 else 1
        self.homes, self.changes, self.folded, self.frames = [], [], 0, 0
        self.counts, self.growths, self.records, self.maybe = [0] * 5, 0, 0, []

    def read(self):
        self.read_header()
        self.gate = 11
        while True:
            if self.gate >= len(self.image):
                raise damaged(self.gate, 'no gate')
            if self.image[self.gate] != 1:
                return
            behind = self.read_frame(self.gate)
            kind, self.gate = self.image[self.gate + 1], behind
            self.counts[kind] += 1

    def fitting(self, body, length, count, head, each):
        """How many records a payload has behind so many bytes and so many for each of a count, if they fit."""
        left = length - head - each * count
        if left < 0 or left % self.width:
            raise damaged(body, 'layout')
        if count < 1 or left // self.width < count:
            self.maybe.append((damaged(body, 'layout'), len(self.homes)))
        return left // self.width

    def read_group(self, body, length):
        if length < 4:
            raise damaged(body, 'layout')
        growths = u32(self.image, body)
        records = self.fitting(body, length, growths, 4, 4)
        self.growths += growths
        self.records += records
        self.homes += [None] * records

    def read_change(self, body, length):
        if self.version == 1:
            self.fitting(body, length, 1, 8, 0)
        elif length < 4:
            raise damaged(body, 'layout')
        else:
            self.fitting(body, length, u32(self.image, body), 4, 12)
        self.changes.append([])

    def fields(self):
        _, groups, changes, shrinks, folds = self.counts
        return {'version': self.version, 'width': self.width, 'bytes': len(self.image), 'groups': groups, 'changes': changes,
                'shrinks': shrinks, 'folds': folds, 'growths': self.growths, 'records': self.records,
                'size': len(self.homes), 'live': changes - self.folded, 'gate': self.gate,
                'behind': len(self.image) - self.gate - 1}


def answers_to_stat(image, as_json):
    """The answers that it may give: status, output, and what standard error has."""
    outlines = Outlines(image)
    try:
        outlines.read()
        fields = outlines.fields()
        lines = ''.join('%s %d\n' % field for field in fields.items())
        last = 0, json.dumps(fields, separators=(',', ':')) + '\n' if as_json else lines, ''
    except Fault as fault:
        last = refusal_of(fault, len(outlines.homes), as_json)
    return [*(refusal_of(*one, as_json) for one in outlines.maybe), last]


def refusal_of(fault, size, as_json):
    told = '; the frames before that leave %d records\n' % size if str(fault).startswith('damaged') else '\n'
    return 1, '{"refused":"%s"}\n' % fault if as_json else 'refused: %s\n' % fault, told


def stat_differs(words, found, image):
    """Says how, or nothing."""
    wanted = answers_to_stat(image, '--json' in words)
    status, written, told = found[0], found[1].decode(), found[2].decode()
    if any((status, written) == one[:2] and told.endswith(one[2]) and told.count('\n') == status for one in wanted):
        return None
    return '%s: wanted one of %r, found %r' % (' '.join(words), wanted, found)
