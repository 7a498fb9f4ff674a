"""Images of which the system's memory has more than their disks: which sectors were written, and which of them a power failure can
take away."""

import itertools
import random

from members import SECTOR

# Of more ways than this to cut what was not synced, so many are drawn.
MOST_CUTS = 48


class Write:
    """One write to an image: its sectors and their bytes."""

    def __init__(self, call):
        first = call.place // SECTOR
        count = call.size // SECTOR
        self.sectors = {first + at: call.written[SECTOR * at : SECTOR * (at + 1)] for at in range(count)}

    def first_half(self):
        """The sectors that are written where the process ends within it."""
        kept = sorted(self.sectors)[: len(self.sectors) // 2]
        return self.of(kept)

    def of(self, sectors):
        part = Write.__new__(Write)
        part.sectors = {sector: self.sectors[sector] for sector in sectors}
        return part

    def cuts(self):
        """What may be on the disk of it: nothing, all of it, a half, every other sector."""
        sectors = sorted(self.sectors)
        half = len(sectors) // 2
        kept = ((), sectors, sectors[:half], sectors[half:], sectors[::2])
        return [self.of(one).sectors for one in dict.fromkeys(tuple(one) for one in kept)]


class Image:
    """By sector what was written since the story began: what is on the disk, and the writes that memory alone has."""

    def __init__(self, stored=None, unsynced=()):
        self.stored = dict(stored or {})
        self.unsynced = list(unsynced)

    def copy(self):
        return Image(self.stored, self.unsynced)

    def sync(self):
        for write in self.unsynced:
            self.stored.update(write.sectors)
        self.unsynced = []

    def seen(self):
        """What a program reads: memory and disk are one to it."""
        image = self.copy()
        image.sync()
        return image.stored


class Memory:
    """All images of a story."""

    def __init__(self, images):
        self.images = images

    @staticmethod
    def of(count):
        return Memory([Image() for _ in range(count)])

    def copy(self):
        return Memory([image.copy() for image in self.images])

    def do(self, index, call):
        if call.kind == "sync":
            self.images[index].sync()
        else:
            self.images[index].unsynced.append(Write(call))

    def seen(self):
        return [image.seen() for image in self.images]

    def is_synced(self, indices):
        return not any(self.images[index].unsynced for index in indices)

    def left(self, draw):
        """What a power failure may leave of each image: of each write that was not synced any of its cuts, the later ones over the
        earlier ones."""
        owners = [(at, write.cuts()) for at, image in enumerate(self.images) for write in image.unsynced]
        for cuts in self.drawn([cuts for _, cuts in owners], draw):
            stored = [dict(image.stored) for image in self.images]
            for (at, _), kept in zip(owners, cuts):
                stored[at].update(kept)
            yield stored

    @staticmethod
    def drawn(cuts, draw):
        count = 1
        for one in cuts:
            count *= len(one)
        if count <= MOST_CUTS:
            return itertools.product(*cuts)
        # Each write alone lost, each alone kept, and others by the seed.
        alone = [[one[0 if at == lost else 1] for at, one in enumerate(cuts)] for lost in range(len(cuts))]
        alone += [[one[1 if at == kept else 0] for at, one in enumerate(cuts)] for kept in range(len(cuts))]
        return alone + [[draw.choice(one) for one in cuts] for _ in range(MOST_CUTS)]


def drawing(seed):
    return random.Random(seed)
