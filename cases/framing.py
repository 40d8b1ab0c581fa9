"""Draws lines that read and write the memory of a signal frame, for cases/random."""

SIZES = {0: 160, 1: 256, 2: 256, 5: 64, 6: 512, 7: 1024, 9: 8, 17: 64}
MEMORY = 16388
MAGIC1, MAGIC2 = "53585046", "45585046"


class Frame:
    """The frame of a machine: the place of each component but TILEDATA, those of the rows of tiles that a script uses, the user size, that of a
    task without room for TILEDATA, the full size, that of a register set, and the components whose registers a script uses."""

    def __init__(self, places, rows, full, chosen):
        self.places, self.rows, self.full, self.chosen = places, rows, full, chosen
        self.size = max([576] + [at + SIZES[component] for component, at in places.items() if component > 1])

    def ranges(self):
        """Where registers stand, without MXCSR and its mask."""
        return [(0, 24), (32, 128)] + [(at, SIZES[component]) for component, at in self.places.items() if component]

    def chosen_ranges(self):
        """The same, of the components whose registers a script uses, or of all where it uses x87 alone."""
        return [(at, SIZES[component]) for component, at in self.places.items() if component and component in self.chosen] or self.ranges()

    def tile_ranges(self):
        """Rows of tiles, which a register set has and the frame of a task with room for TILEDATA; or any component. No row stands where the frame of
        another task may have its second magic word."""
        return [(at, 64) for at in self.rows if not self.size - 64 < at < self.size + 4] or self.ranges()

    def end(self, rng):
        """A user size."""
        return rng.choice([self.size, self.full]) if self.rows else self.size


def within(rng, at, size):
    """A place in a range, and as many bytes of it as a line may have, or fewer."""
    first = at + rng.choice([0, 0, rng.randrange(size)])
    return first, min(64, at + size - first, rng.choice([1, 4, 16, 64]))


def draw_peek(rng, frame, tag):
    """With a tag only bytes of registers are read."""
    if tag is not None or rng.random() < 0.4:
        at, size = within(rng, *rng.choice(rng.choice([frame.ranges, frame.tile_ranges])()))
    else:
        words = [(464, 20), (512, 64), (24, 8), (416, 64), (frame.end(rng), 4), (frame.end(rng) - 32, 40), (MEMORY - 4, 4)]
        at, size = rng.choice(words + [within(rng, 0, MEMORY), within(rng, *rng.choice(frame.tile_ranges()))])
    return f"peek {at} {size}"


def draw_poke(rng, frame, tag):
    """With a tag only that byte is put where registers are, and no frame is refused."""
    accepted = [registers, registers, used, used, first_word]
    any_kind = [registers, used, first_word, second_word, sizes, sizes, features, header, mxcsr, anywhere]
    at, data = rng.choice(any_kind if tag is None else accepted)(rng, frame, tag)
    return f"poke {at} {data}"


def registers(rng, frame, tag):
    at, size = within(rng, *rng.choice(frame.ranges()))
    return at, bytes(rng.randrange(256) if tag is None else tag for _ in range(size)).hex()


def bits(rng, frame):
    return sum(1 << component for component in frame.places if rng.random() < 0.6)


def used(rng, frame, tag):
    """The components in use: some of those that the task may have."""
    tiles = rng.choice([0, 1 << 18]) if tag is None and frame.rows else 0
    return 512, (bits(rng, frame) | tiles).to_bytes(8, "little").hex()


def first_word(rng, frame, tag):
    """The first magic word, or the features beside it."""
    if rng.random() < 0.6:
        return rng.choice([(464, "00"), (467, "ff"), (464, MAGIC1)])
    return 472, bits(rng, frame).to_bytes(8, "little").hex()


def second_word(rng, frame, tag):
    return frame.end(rng) + rng.choice([0, 0, 1, 3]), rng.choice(["00", "45", "58"])


def sizes(rng, frame, tag):
    """The two sizes, and the second word where a size may say it."""
    size = rng.choice([0, 575, 576, 577, 640, frame.size - 1, frame.size, frame.size + 1, frame.size + 4, frame.full, 11008, 16384, 16385, 16388, 2 ** 32 - 1])
    return rng.choice([(468, size.to_bytes(4, "little").hex()), (480, size.to_bytes(4, "little").hex()), (min(size, MEMORY - 4), MAGIC2)])


def features(rng, frame, tag):
    return 472, rng.choice([bits(rng, frame), 2 ** 64 - 1, 0, 1 << rng.randrange(64)]).to_bytes(8, "little").hex()


def header(rng, frame, tag):
    """Bytes that a return refuses, mostly."""
    at = rng.choice([512, 513, 514, 519, 520, 527, 528, 535, 536, 575, rng.randrange(512, 576), 576])
    return at, f"{rng.choice([0, 1, 1 << rng.randrange(8), rng.randrange(256)]):02x}"


def mxcsr(rng, frame, tag):
    return rng.choice([(24, "a01f"), (24, "ffff0000"), (24, "801f0000"), (26, "01"), (27, "80"), (28, "ffffffff")])


def anywhere(rng, frame, tag):
    at, size = within(rng, 0, MEMORY)
    return at, bytes(rng.choice([0, rng.randrange(256)]) for _ in range(size)).hex()
