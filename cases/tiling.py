"""Draws lines of tiles, for cases/random."""

ROWS = {f"tmm{tile}.{row}": 1024 * tile + 64 * row for tile in range(8) for row in range(16)}


def draw_tiles(rng):
    """The registers of tiles that a script uses."""
    return [(name, 64) for name in rng.sample(sorted(ROWS), rng.choice([1, 2, 4]))] + [("tilecfg", 64)] * rng.choice([0, 1, 1])


def rows_of(registers, at):
    """Where the rows of tiles among some registers stand, if TILEDATA stands there."""
    return [at + ROWS[name] for name, _ in registers if name in ROWS]


def draw_leave(rng):
    # (not 19, which is a component in other versions)
    return f"perm {rng.choice([18] * 30 + [0, 1, 16, 17, 20, 63, 4294967295])}"


def put_leave(rng, blocks, secrets):
    """Lines that ask for leave, most of them early, and some that release the tiles. With secrets each task may use tiles."""
    for block in blocks:
        if block.kind == "kthread":
            continue
        for lines, chance in ((block.body, 0.8), (block.handler, 0.3)):
            if lines is None:
                continue
            if secrets:
                lines.insert(0, "perm 18")
            elif rng.random() < chance:
                lines.insert(rng.choice([0, 0, rng.randint(0, len(lines))]), draw_leave(rng))
            if rng.random() < 0.25:
                lines.insert(rng.randint(0, len(lines)), "tilerelease")


def change_tiles(rng, lines, places):
    """A line of tiles that is spelled wrongly, or any line that becomes one of tiles."""
    if places:
        lines[rng.choice(places)] = rng.choice([
            "get tilecfg", "get tmm0.0", "get tmm7.15", "get tmm8.0", "get tmm0.16", "get tmm0", "get tmm00.0", "set tilecfg 00", "set tmm1.1 00",
            f"set tmm3.4 {'5a' * 64}", f"set tilecfg {'01' * 64}", f"set tilecfg {'01' * 63}", "perm", "perm 18 18", "perm 018", "perm x", "perm 4294967296",
            "perm 18", "tilerelease", "tilerelease 0", "tilereleases",
        ])
