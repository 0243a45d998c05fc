"""What a crash may leave, by docs/file/disk.md: a disk that keeps its bytes at the last sync and the writes since, and images of it."""

FILLS = (b'\0', b'\1', b'\xff')


class Disk:
    """The bytes at the last sync, the writes since, and what a read gives."""

    def __init__(self, image=b''):
        self.synced, self.seen, self.pending = bytes(image), bytearray(image), ()

    def write(self, place, written):
        self.pending += ((place, bytes(written)),)
        self.seen[place:place + len(written)] = written

    def sync(self):
        self.synced, self.pending = bytes(self.seen), ()

    def moment(self):
        return self.synced, self.pending


def arrived(rng, written, how):
    """What stands in the place of a write: by parts that are None where the old bytes stay."""
    some = rng.randrange(len(written) + 1)
    if how == 'whole':
        return [(0, written)]
    if how == 'front':
        return [(0, written[:some])]
    if how == 'torn':
        return [(0, written[:some]), (some, rng.choice(FILLS) * (len(written) - some))]
    if how == 'end':
        return [(some, written[some:])]
    if how == 'garbage':
        return [(0, rng.choice([rng.randbytes(len(written)), rng.choice(FILLS) * len(written)]))]
    return []


def laid_out(rng, moment, hows):
    """An image in which each write since the sync has arrived in one of these ways, cut at a length that a crash may leave."""
    synced, pending = moment
    image, greatest = bytearray(synced), max([len(synced)] + [place + len(written) for place, written in pending])
    image += rng.choice(FILLS) * (greatest - len(synced))
    for place, written in pending:
        for at, part in arrived(rng, written, rng.choice(hows)):
            image[place + at:place + at + len(part)] = part
    return bytes(image[:rng.choice([len(synced), greatest, greatest, rng.randint(len(synced), greatest)])])


def fronts(rng, moment, most):
    """Images in which so many of the bytes written since have arrived, and the others are 01: every number of them, or a choice."""
    synced, pending = moment
    count = sum(len(written) for _, written in pending)
    for arrive in range(count + 1) if count < most else rng.sample(range(count + 1), most):
        image = bytearray(synced)
        for place, written in pending:
            part = written[:arrive] + b'\1' * (len(written) - arrive)
            arrive = max(0, arrive - len(written))
            image += b'\1' * (place + len(part) - len(image))
            image[place:place + len(part)] = part
        yield bytes(image)


def images(rng, moment, most):
    """Different images of a moment, at most about twice so many."""
    ways = ('whole', 'front', 'torn', 'end', 'garbage', 'missing')
    found = {laid_out(rng, moment, [way]) for way in ('whole', 'missing', 'garbage')}
    if moment[1]:
        found.update(fronts(rng, moment, most))
        found.update(laid_out(rng, moment, ways) for _ in range(most))
    return sorted(found)
