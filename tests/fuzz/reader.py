"""The reader of files: docs/file/format.md, read in its order. It shares nothing with the program."""

import struct
from fractions import Fraction


# ---- record types: width, whether bytes are a record, and their text

def any_bytes(_cell):
    return True


def number_text(cell):
    return str(int.from_bytes(cell, 'little'))


def signed_text(cell):
    return str(int.from_bytes(cell, 'little', signed=True))


def float_value(cell):
    """The sign, the bits behind it, and the number that they are, as a ratio; of an infinity and a NaN there is none."""
    digits, least = {4: (23, -149), 8: (52, -1074)}[len(cell)]
    bits = int.from_bytes(cell, 'little')
    top = 1 << 8 * len(cell) - 1
    exponent, fraction = bits % top >> digits, bits % (1 << digits)
    if exponent == (top >> digits) - 1:
        return bits // top, bits % top, None
    whole = fraction + ((1 << digits) if exponent else 0)
    return bits // top, bits % top, whole * Fraction(2) ** (max(exponent, 1) - 1 + least)


def shortest_digits(width, bits, number):
    """The digits, as a number, and the power of ten behind them: of decimals that round to the float those with the fewest digits,
    and of these the nearest."""
    def of(other):
        infinite = {4: 0x7f800000, 8: 0x7ff << 52}[width]
        # Behind the greatest float the next power of two stands for the infinity.
        return Fraction(2) ** {4: 128, 8: 1024}[width] if other == infinite else float_value(other.to_bytes(width, 'little'))[2]

    low, high = (number + of(bits - 1)) / 2, (number + of(bits + 1)) / 2
    is_in = (lambda it: low <= it <= high) if bits % 2 == 0 else (lambda it: low < it < high)
    power = len(str(number.numerator)) - len(str(number.denominator)) + 1
    while True:
        scaled = number / Fraction(10) ** power
        below = scaled.numerator // scaled.denominator
        found = [it for it in (below, below + 1) if it and is_in(it * Fraction(10) ** power)]
        if found:
            return min(found, key=lambda it: (abs(it - scaled), it % 2)), power
        power -= 1


def float_text(cell):
    """A point stands between digits where there are few zeros beside them, and else an exponent behind."""
    sign, bits, number = float_value(cell)
    front, few, zeros = '-' * sign, {4: 13, 8: 16}[len(cell)], {4: 6, 8: 5}[len(cell)]
    if number is None:
        quiet, infinite = {4: (0x7fc00000, 0x7f800000), 8: (0x7ff8 << 48, 0x7ff << 52)}[len(cell)]
        if bits == infinite:
            return front + 'inf'
        return 'NaN' if (sign, bits) == (0, quiet) else 'NaN:%d' % int.from_bytes(cell, 'little')
    if number == 0:
        return front + '0.0'
    digits, power = shortest_digits(len(cell), bits, number)
    text = str(digits).rstrip('0')
    power += len(str(digits)) - len(text)
    before = len(text) + power
    if power >= 0 and before <= few:
        return '%s%s%s.0' % (front, text, '0' * power)
    if 0 < before <= few:
        return '%s%s.%s' % (front, text[:before], text[before:])
    if -zeros < before <= 0:
        return '%s0.%s%s' % (front, '0' * -before, text)
    return '%s%s%se%d' % (front, text[0], '.' + text[1:] if len(text) > 1 else '', before - 1)


def pair_text(cell):
    return '%d:%d' % struct.unpack('<Qq', cell)


TYPES = {
    'u8': (1, any_bytes, number_text),
    'u16': (2, any_bytes, number_text),
    'u32': (4, any_bytes, number_text),
    'u64': (8, any_bytes, number_text),
    'i32': (4, any_bytes, signed_text),
    'i64': (8, any_bytes, signed_text),
    'f32': (4, any_bytes, float_text),
    'f64': (8, any_bytes, float_text),
    'pair': (16, any_bytes, pair_text),
    'flagged': (9, lambda cell: cell[8] < 2, lambda cell: '%d:%d' % struct.unpack('<QB', cell)),
    'bytes16': (16, any_bytes, bytes.hex),
    'bytes24': (24, any_bytes, bytes.hex),
    'bytes32': (32, any_bytes, bytes.hex),
    'bytes64': (64, any_bytes, bytes.hex),
}


# ---- files

class Fault(Exception):
    pass


def damaged(place, cause):
    return Fault('damaged at %d: %s' % (place, cause))


def u32(image, place):
    return int.from_bytes(image[place:place + 4], 'little')


def u64(image, place):
    return int.from_bytes(image[place:place + 8], 'little')


class File:
    """What an image holds. Each position has the place of its home bytes; changes are lists of runs, and where a
    run's records stand."""

    def __init__(self, image, kind):
        self.image = image
        self.width, self.is_record, self.text = TYPES[kind]
        self.homes, self.changes, self.folded, self.frames = [], [], 0, 0
        self.read_header()
        place = 11
        while True:
            if place >= len(image):
                raise damaged(place, 'no gate')
            if image[place] != 1:
                break
            place = self.read_frame(place)
        self.places = list(self.homes)
        for runs in self.changes[self.folded:]:
            for start, count, at in runs:
                for k in range(count):
                    self.places[start + k] = at + k * self.width
        self.cells = [image[at:at + self.width] for at in self.places]
        for at, cell in zip(self.places, self.cells):
            if not self.is_record(cell):
                raise damaged(at, 'bad record')

    def read_header(self):
        image = self.image
        if len(image) < 2 or image[0] != 1:
            raise Fault('unborn')
        if len(image) < 11 or image[1:8] != b'CVECSEG':
            raise Fault('not a segment')
        self.version = image[8]
        if self.version not in (1, 2):
            raise Fault('version %d' % self.version)
        width = image[9] + 256 * image[10]
        if width != self.width:
            raise Fault('width %d' % width)
        self.limit = {1: 1 << 20, 2: 1 << 24}[self.version]

    def read_frame(self, place):
        image = self.image
        if place + 6 > len(image):
            raise damaged(place, 'short frame')
        kind, length, body = image[place + 1], u32(image, place + 2), place + 6
        if kind not in (1, 2, 3, 4):
            raise damaged(place + 1, 'kind %d' % kind)
        if length > self.limit:
            raise damaged(place + 2, 'too large')
        if body + length > len(image):
            raise damaged(place, 'short frame')
        if kind == 1:
            self.read_group(body, length)
        elif kind == 2:
            self.read_change(body, length)
        elif length != 8:
            raise damaged(body, 'layout')
        elif kind == 3:
            self.read_shrink(place, u64(image, body))
        else:
            count = u64(image, body)
            if not self.folded <= count <= len(self.changes):
                raise damaged(body, 'fold count')
            self.folded = count
        self.frames += 1
        return body + length

    def read_group(self, body, length):
        count = u32(self.image, body) if length >= 4 else 0
        if count < 1 or 4 + 4 * count > length:
            raise damaged(body, 'layout')
        lengths = [u32(self.image, body + 4 + 4 * k) for k in range(count)]
        if 0 in lengths or 4 + 4 * count + sum(lengths) * self.width != length:
            raise damaged(body, 'layout')
        first = body + 4 + 4 * count
        self.homes += [first + k * self.width for k in range(sum(lengths))]

    def read_change(self, body, length):
        image = self.image
        if self.version == 1:
            if length < 8 + self.width or (length - 8) % self.width:
                raise damaged(body, 'layout')
            runs, at = [(u64(image, body), (length - 8) // self.width)], body + 8
        else:
            count = u32(image, body) if length >= 4 else 0
            if count < 1 or 4 + 12 * count > length:
                raise damaged(body, 'layout')
            heads = [body + 4 + 12 * k for k in range(count)]
            runs, at = [(u64(image, head), u32(image, head + 8)) for head in heads], body + 4 + 12 * count
            counts = [count for _, count in runs]
            if 0 in counts or 4 + 12 * count + sum(counts) * self.width != length:
                raise damaged(body, 'layout')
        if any(start + count > later for (start, count), (later, _) in zip(runs, runs[1:])):
            raise damaged(body, 'runs')
        if any(start + count > len(self.homes) for start, count in runs):
            raise damaged(body, 'range')
        change = []
        for start, count in runs:
            change.append((start, count, at))
            at += count * self.width
        self.changes.append(change)

    def read_shrink(self, place, length):
        if length > len(self.homes):
            raise damaged(place + 6, 'range')
        if self.folded < len(self.changes):
            raise damaged(place, 'unfolded')
        del self.homes[length:]


def answers_of(image, kind):
    """What `show` and `check` answer of an image."""
    try:
        file = File(image, kind)
    except Fault as fault:
        refusal = (1, b'refused: %s\n' % str(fault).encode())
        return refusal, refusal
    shown = ''.join(file.text(cell) + '\n' for cell in file.cells)
    checked = 'ok version %d width %d size %d frames %d live %d\n' % (
        file.version, file.width, len(file.cells), file.frames, len(file.changes) - file.folded)
    return (0, shown.encode()), (0, checked.encode())
