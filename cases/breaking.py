"""Changes a history a little, for cases/random."""

# What may stand in the place of a word of a line: by its place behind a Start, behind a line that ran and behind a Kill.
HOW = ["load", "skip", "kern"]
SIGNALS = ["-", "1", "10", "12", "31", "32", "0"]
REPLIES = ["-", "+0", "+512", "+832", "+11008", "+01", "!3", "!14", "!22", "!95", "!4294967296", "blocked", "stopped", "ended", "held", "full", "legacy",
           "=00", "=", "=" + "00" * 64, "=" + "00" * 65]
CAUSES = ["permission", "area", "frame-features", "frame-compacted", "frame-reserved", "frame-mxcsr", "frame"]
FIRST = ["start", "local", "outer", "grow", "kill", "end", "yield"]
NUMBERS = ["0", "1", "2", "15", "16", "7", "00", "4294967295", "4294967296"]


def change_byte(rng, lines):
    text = "\n".join(lines) + "\n"
    at = rng.randrange(len(text))
    some = "0123456789abcdef" if text[at] in "0123456789abcdef" and rng.random() < 0.7 else " \n\r\t\0-=+!aAlsz%09\xff"
    return text[:at] + rng.choice([it for it in some if it != text[at]]) + text[at + 1:]


def near(rng, lines, at):
    """Another place than this one, mostly a near one."""
    return rng.choice([it for it in range(len(lines)) if it != at and (abs(it - at) <= 3 or rng.random() < 0.02)] or [at])


def drop_line(rng, lines):
    at = rng.randrange(len(lines))
    return lines[:at] + lines[at + 1:]


def double_line(rng, lines):
    at = rng.randrange(len(lines))
    return lines[:at] + [lines[at]] + lines[at:]


def move_line(rng, lines):
    at = rng.randrange(len(lines))
    other, rest = near(rng, lines, at), lines[:at] + lines[at + 1:]
    return rest[:other] + [lines[at]] + rest[other:]


def move_start(rng, lines):
    """A Start moved before the lines that stand before it: often the history of another order."""
    at = rng.choice([it for it, line in enumerate(lines) if line.startswith("start ")])
    other = max(0, at - rng.choice([1, 2, 3, 5]))
    return lines[:other] + [lines[at]] + lines[other:at] + lines[at + 1:]


def change_word(rng, lines):
    """A word changed for one that may stand in its place."""
    at = rng.randrange(len(lines))
    words = lines[at].split(" ")
    names, some = [line.split(" ")[1] for line in lines[:50]], {0: FIRST}
    some.update({"start": {2: NUMBERS, 3: HOW, 4: SIGNALS}, "kill": {2: SIGNALS, 3: CAUSES}}.get(words[0], {2: NUMBERS, 3: REPLIES}))
    place = rng.randrange(len(words))
    others = names + ["zz"] if place == 1 else some[place] + [line.split(" ")[place] for line in lines[:50] if line.startswith(words[0])]
    words[place] = rng.choice([word for word in others if word != words[place]])
    return lines[:at] + [" ".join(words)] + lines[at + 1:]


def change_twice(rng, lines):
    """A line that is mostly no step, and then a byte: a line that is badly spelled is told first, wherever it stands."""
    return change_byte(rng, rng.choice([drop_line, move_line, change_word])(rng, lines))


CHANGES = {
    "a byte changed": change_byte,
    "a line dropped": drop_line,
    "a line doubled": double_line,
    "a line moved": move_line,
    "a start moved": move_start,
    "a word changed": change_word,
    "a line and a byte changed": change_twice,
}


def first_change(old, new):
    """The first line, counted from 1, in which two texts differ; one more than the lines of both where none does."""
    old, new = old.split(b"\n"), new.split(b"\n")
    return next((at for at, (one, other) in enumerate(zip(old, new), 1) if one != other), min(len(old), len(new)))


def changed_by(change, rng, history):
    """The history with one such change."""
    changed = change(rng, history.decode("latin-1").split("\n")[:-1])
    text = changed if isinstance(changed, str) else "".join(line + "\n" for line in changed)
    return text.encode("latin-1")
