"""Random files: of sound frames, of nearly sound ones, altered, and of any bytes."""

import struct

from reader import TYPES
from writer import change, fold, frame, group, header, shrink


def random_cells(rng, kind, most):
    width, is_record, _ = TYPES[kind]
    cells = [rng.randbytes(width) if rng.random() < .5 else bytes([rng.randrange(3)] * width) for _ in range(rng.randint(1, most))]
    return [cell if is_record(cell) else cell[:-1] + b'\1' for cell in cells]


def random_runs(rng, kind, version, size):
    runs, start = [], 0
    while start < size and (not runs or version == 2 and rng.random() < .6):
        start = rng.randrange(start, size)
        cells = random_cells(rng, kind, min(4, size - start))
        runs.append((start, cells))
        start += len(cells)
    return runs


def frames_image(rng, kind, sound=True):
    """A file, of whatever frames may stand in it, or nearly so."""
    version, size, changes, folded = rng.randint(1, 2), 0, 0, 0
    slip = 0 if sound else .2
    frames = [header(version, TYPES[kind][0])]
    for _ in range(rng.randrange(7)):
        what = rng.randrange(5)
        if what < 2 or size == 0:
            growths = [random_cells(rng, kind, 4) for _ in range(rng.randint(1, 3))]
            frames.append(group(growths))
            size += sum(map(len, growths))
        elif what == 2:
            runs = random_runs(rng, kind, version, size)
            if rng.random() < slip:
                rng.shuffle(runs)
            if rng.random() < slip:
                runs[-1] = (size + rng.randint(-1, 1), runs[-1][1])
            frames.append(change(version, runs))
            changes += 1
        elif what == 3 and (folded == changes or rng.random() < slip):
            size = rng.randint(0, size)
            frames.append(shrink(size + (rng.random() < slip)))
        else:
            folded = rng.randint(folded, changes)
            frames.append(fold(max(0, folded + (rng.randint(-1, 1) if rng.random() < slip else 0))))
    return b''.join(frames) + bytes([rng.choice([0, 0, 7])]) + rng.randbytes(rng.choice([0, 0, 0, 5]))


def mutated(rng, image):
    image = bytearray(image)
    for _ in range(rng.randint(1, 3)):
        at, what = rng.randrange(len(image) + 1), rng.randrange(6)
        if what == 0:
            image[at:at + 1] = bytes([rng.choice([0, 1, 2, 3, 4, 8, 255, rng.randrange(256)])])
        elif what == 1:
            del image[at:]
        elif what == 2:
            image[at:at + 4] = struct.pack('<I', rng.choice([0, 1, 2, 1 << 20, (1 << 24) + 1, (1 << 32) - 1, rng.randrange(64)]))
        elif what == 3:
            del image[at:at + rng.randint(1, 8)]
        elif what == 4:
            image[at:at] = rng.randbytes(rng.randint(1, 8))
        else:
            end = rng.randrange(at, len(image) + 1)
            image[at:at] = image[at:end]
    return bytes(image)


def random_frames(rng, kind):
    """A header, and frames of any kind with any payload."""
    frames = [header(rng.randint(1, 2), TYPES[kind][0])]
    for _ in range(rng.randrange(6)):
        small = b''.join(struct.pack('<I', rng.choice([0, 0, 1, 1, 2, 3])) for _ in range(rng.randrange(8)))
        payload = rng.choice([small, rng.randbytes(rng.randrange(40)), group([random_cells(rng, kind, 3)])[6:]])
        frames.append(frame(rng.choice([1, 1, 1, 2, 2, 3, 4, rng.randrange(256)]), payload))
    return b''.join(frames) + bytes([rng.randrange(2)])


def random_image(rng):
    kind = rng.choice(list(TYPES))
    what = rng.random()
    if what < .4:
        return frames_image(rng, kind, sound=what < .2), kind
    if what < .8:
        return mutated(rng, frames_image(rng, kind)), kind
    if what < .95:
        return random_frames(rng, kind), kind
    return rng.randbytes(rng.randrange(60)), kind
