"""The follower of scripts: what `play` may answer, on plain lists."""

from program import run


class Wrong(Exception):
    pass


def must(holds, told):
    if not holds:
        raise Wrong(told)


class Follower:
    """Follows the answers of `play u64` on lists. `kept` are the lists of which a crash may leave any, in the order in
    which they were; `now` the lists that the vault may have, which have one length. Both are several only where a crash
    left one of several and nothing has told yet which. With `faults`, memory or the disk may have been refused."""

    def __init__(self, faults=False):
        self.faults, self.born, self.kept, self.now, self.phase, self.broken = faults, False, [()], [], 'none', False

    def follow(self, line, answer):
        verb, *words = line.split(' ')
        refused = answer.startswith('refused ')
        name = answer[len('refused '):] if refused else None
        must(self.fits(verb, words) == (name != 'wrong phase'), 'a phase')
        if name == 'wrong phase':
            return
        fault = refused and (name == 'memory' or name.startswith('disk ') or name == 'broken')
        must(self.faults or not fault, 'a fault of nothing')
        if fault:
            self.fail(verb, words, name)
        else:
            getattr(self, verb if verb != 'raise' else 'raise_')(words, answer, name)

    def fits(self, verb, words):
        if verb in ('create', 'open'):
            return self.phase == 'none'
        if verb in ('share', 'change', 'changes', 'resize', 'clear', 'list'):
            return self.phase == 'own'
        if verb in ('fold', 'log', 'home'):
            return self.phase != 'none'
        if verb in ('put', 'view', 'settled') or verb == 'look' and words != ['f']:
            return self.phase == 'grow' and int(words[0]) < len(self.seats)
        return verb == 'crash' or self.phase == 'grow'

    def fail(self, verb, words, name):
        """A refusal of memory changes nothing. A fault of the disk breaks who has it; behind one a command may be in the
        file or not, and is in the vault."""
        must(name != 'broken' or self.broken, 'broken by nothing')
        if name.startswith('disk '):
            self.broken = self.phase != 'none'
            if verb == 'create':
                self.born = None
            if verb in ('change', 'changes', 'resize', 'clear'):
                self.now = [self.commanded(verb, words, one) for one in self.now]
                self.kept = self.kept + self.now

    def create(self, _words, answer, name):
        must(self.born is None or (name == 'exists') == self.born, 'a file that is there')
        must(name in (None, 'exists'), 'a refusal')
        if name is None:
            must(answer == 'ok', 'an answer')
            self.born, self.kept, self.now, self.phase = True, [()], [()], 'own'
        else:
            self.born = True

    def open(self, _words, answer, name):
        must(self.born is None or (name == 'unborn') == (not self.born), 'a file that is there')
        if name is None:
            self.now = [one for one in self.kept if answer == 'size %d' % len(one)]
            must(self.now != [], 'a list that no prefix is')
            self.kept, self.phase, self.born = list(self.now), 'own', True
        else:
            must(name == 'unborn', 'a refusal')

    def crash(self, _words, answer, _name):
        must(answer.startswith('crashed '), 'an answer')
        self.phase, self.broken = 'none', False

    def list(self, _words, answer, _name):
        self.now = [one for one in self.now if answer == (' '.join(one) or 'empty')]
        must(self.now != [], 'another list')
        if not self.broken:
            self.kept = list(self.now)

    def commanded(self, verb, words, one):
        one = list(one)
        if verb == 'clear':
            return ()
        if verb == 'resize':
            return tuple(one[:int(words[0])] + [words[1]] * (int(words[0]) - len(one)))
        for run in ' '.join(words).split(' | '):
            start, *records = run.split(' ')
            must(int(start) + len(records) <= len(one), 'a change outside')
            one[int(start):int(start) + len(records)] = records
        return tuple(one)

    def command(self, verb, words, answer, name):
        if name is None:
            must(answer == 'ok', 'an answer')
            self.now = [self.commanded(verb, words, one) for one in self.now]
            self.kept = list(self.now)

    def change(self, words, answer, name):
        outside = int(words[0]) + len(words) - 1 > len(self.now[0])
        must(name in (None, 'busy') and not outside or name == 'out of range' and outside or name == 'busy', 'a refusal')
        self.command('change', words, answer, name)

    def changes(self, words, answer, name):
        must(name in (None, 'busy', 'out of range', 'runs', 'old format'), 'a refusal')
        self.command('changes', words, answer, name)

    def resize(self, words, answer, name):
        shorter = int(words[0]) < len(self.now[0])
        must(name in (None, 'busy', 'too large') or name == 'unfolded' and shorter, 'a refusal')
        self.command('resize', words, answer, name)

    def clear(self, words, answer, name):
        must(name in (None, 'busy', 'unfolded'), 'a refusal')
        self.command('clear', words, answer, name)

    def share(self, words, answer, name):
        room, seats = map(int, words)
        sound = 1 <= room <= 1048568 and 1 <= seats <= 64
        must(name in (None, 'busy') and sound or name in ('too large', 'busy') and not sound, 'a refusal')
        if name is None:
            must(answer == 'ok', 'an answer')
            self.phase, self.room, self.seats, self.growths = 'grow', room, [0] * seats, []
            self.opening, self.found, self.taken, self.settles, self.told = self.now, 0, 0, 0, 0
            self.closed, self.job = False, False

    def size(self, count=None):
        return len(self.opening[0]) + sum(len(growth) for growth in self.growths[:count])

    def lists(self, count):
        grown = tuple(record for growth in self.growths[:count] for record in growth)
        return [one + grown for one in self.opening]

    def put(self, words, answer, name):
        must((name == 'closed') == self.closed, 'a closed book')
        if self.closed:
            return
        must((name == 'full') == (len(self.growths) == self.room), 'a full book')
        if name is None:
            must(answer == 'growth %d start %d len %d' % (len(self.growths), self.size(), len(words) - 1), 'a receipt')
            self.growths.append(tuple(words[1:]))
        # Where it is full the seat has learned so.
        self.seats[int(words[0])] = len(self.growths)

    def look(self, words, answer, _name):
        must(answer == 'size %d' % self.size(), 'a size')
        if words == ['f']:
            self.found = len(self.growths)
        else:
            self.seats[int(words[0])] = len(self.growths)

    def view(self, words, answer, _name):
        known = self.lists(self.seats[int(words[0])])
        must(answer in [' '.join(one) or 'empty' for one in known], 'another list')

    def settled(self, _words, answer, _name):
        states = ('running', 'broken') if self.broken else ('running',)
        must(answer in ['settled %d %s' % (self.told, state) for state in states], 'a mark')

    def take(self, _words, answer, name):
        if name == 'busy':
            return
        must(answer == 'took %d' % (self.found - self.taken), 'a group')
        if self.found > self.taken:
            self.taken, self.job = self.found, True
            self.kept = self.kept + self.lists(self.taken)

    def raise_(self, _words, answer, _name):
        must(answer == 'raised %d' % self.settles, 'a mark')
        self.told = self.settles

    def close(self, _words, answer, _name):
        must(answer == 'ok', 'an answer')
        self.closed = True

    def gather(self, _words, answer, name):
        if name is None:
            must(self.settles == len(self.growths) and answer == 'size %d' % self.size(), 'a vault')
            self.now, self.phase = self.lists(None), 'own'
        else:
            must(name == 'unsettled %d' % self.settles and self.settles < len(self.growths), 'a refusal')

    def fold(self, _words, answer, name):
        must(answer in ('begun', 'nothing') or name == 'busy', 'an answer')

    def log(self, _words, answer, _name):
        must(answer in ('idle', 'step', 'done'), 'an answer')
        if self.phase == 'grow' and self.job:
            must(answer != 'idle', 'a job in hand')
            if answer == 'done':
                self.settles, self.job, self.kept = self.taken, False, self.lists(self.taken)

    def home(self, _words, answer, _name):
        must(answer in ('idle', 'step', 'filed', 'waiting'), 'an answer')


def follow(script, written, faults=False):
    """What is wrong with the answers to a script, or nothing."""
    answers = written.decode().split('\n')
    if answers.pop() != '' or len(answers) != len(script):
        return 'so many lines: %d for %d' % (len(answers), len(script))
    follower = Follower(faults)
    for at, (line, answer) in enumerate(zip(script, answers)):
        try:
            follower.follow(line, answer)
        except Wrong as wrong:
            return 'line %d, %s, is answered %s: %s' % (at + 1, line, answer, wrong)
    return None


def judge_script(script):
    status, written, told = run(['play', 'u64'], '\n'.join(script).encode())
    wrong = follow(script, written)
    if (status, told) != (0, b''):
        wrong = 'play ended with %s and told %r' % (status, told)
    return wrong, '\n'.join(script).encode()
