"""Draws lines of tasks that trace their children, for cases/random: stops, waits, register sets and the buffer that they go through."""
from framing import anywhere, bits, header, mxcsr, registers, used, within

BUFFER = 16384
# The first words of lines that reach a child behind a `wait`.
BEHIND_A_WAIT = ("getregs", "setregs", "cont")


def draw_bpeek(rng, frame, tag):
    """With a tag only bytes of registers are read."""
    if tag is not None or rng.random() < 0.4:
        at, size = within(rng, *rng.choice(rng.choice([frame.ranges, frame.chosen_ranges, frame.tile_ranges])()))
    else:
        words = [(512, 2), (512, 8), (512, 64), (464, 8), (464, 48), (24, 8), (416, 64), (min(frame.full, BUFFER - 16) - 8, 16), (BUFFER - 4, 4)]
        at, size = rng.choice(words + [within(rng, 0, BUFFER)])
    return f"bpeek {at} {size}"


def first_byte(rng, frame, tag):
    """The first byte of a component, or the one behind it."""
    component, at = rng.choice(sorted(frame.places.items()))
    return at + rng.choice([0, 0, rng.choice([5, 24, 42, 63])]), f"{rng.randrange(256):02x}"


def marked(rng, frame, tag):
    """The components that a set brings: none, one, or some."""
    some = rng.choice([0, 1 << rng.choice(sorted(frame.places)), bits(rng, frame)])
    if frame.rows and tag is None and rng.random() < 0.5:
        some |= 1 << 18
    return 512, some.to_bytes(8, "little").hex()[:rng.choice([2, 4, 16])]


def words_of_software(rng, frame, tag):
    return rng.choice([464, 471, 472, 479, 480, 511, 416]), rng.choice(["ff", "00", "01"])


def draw_bpoke(rng, frame, tag):
    """With a tag only that byte is put where registers are."""
    accepted = [registers, registers, used, marked]
    any_kind = [registers, first_byte, used, marked, marked, header, header, mxcsr, mxcsr, words_of_software, anywhere]
    at, data = rng.choice(any_kind if tag is None else accepted)(rng, frame, tag)
    return f"bpoke {min(at, BUFFER - len(data) // 2)} {data}"


def draw_count(rng, frame, which):
    """The bytes of a set, mostly as many as it has."""
    right = frame.full if which == "xstate" else 512
    wrong = [0, 1, 511, 512, 513, 575, 576, 832, right - 1, right + 1, right + 8, frame.size, 11007, 11008, 11009, BUFFER]
    return right if rng.random() < 0.85 else min(rng.choice(wrong), BUFFER)


def draw_write(rng, frame, child, tag):
    """A register set that is read, changed and written back, or parts of that."""
    which, lines = rng.choice(["xstate", "xstate", "fx"]), []
    if rng.random() < 0.8:
        lines.append(f"getregs {child} {rng.choice([which, which, which, 'xstate', 'fx'])}")
    lines += [draw_bpoke(rng, frame, tag) for _ in range(rng.choice([0, 1, 1, 2, 3]))]
    lines.append(f"setregs {child} {which} {draw_count(rng, frame, which)}")
    if rng.random() < 0.4:
        lines.append(f"getregs {child} {rng.choice(['xstate', 'fx'])}")
        lines += ["bpeek 512 2"] * (tag is None) + [draw_bpeek(rng, frame, tag)]
    return lines


def draw_look(rng, frame, child, tag):
    """What a tracer does with a child that it has waited for."""
    lines = []
    for _ in range(rng.choice([0, 1, 1, 2, 3])):
        kind = rng.random()
        if kind < 0.55:
            lines += draw_write(rng, frame, child, tag)
        elif kind < 0.85:
            lines += [f"getregs {child} {rng.choice(['xstate', 'fx'])}", draw_bpeek(rng, frame, tag)]
        else:
            lines.append(rng.choice([draw_bpeek, draw_bpoke])(rng, frame, tag))
    return lines


def draw_session(rng, frame, child, tag):
    """Groups of lines, one for each time that a tracer waits for its child."""
    groups = []
    for _ in range(rng.choice([1, 1, 2, 3])):
        refused = [f"setregs {child.name} {rng.choice(['xstate 1', 'fx 511'])}"]
        look = refused if rng.random() < 0.15 else draw_look(rng, frame, child.name, tag)
        group = [f"wait {child.name}"] * rng.choice([1, 1, 1, 2]) + look
        if child.handler is not None and rng.random() < 0.3:
            group.insert(rng.randint(0, len(group)), f"kill {child.name} {rng.choice([10, 12, 31])}")
        groups.append(group + [f"cont {child.name}"] * (rng.random() < 0.75))
    return groups


def put_in_order(rng, body, first, groups):
    """Each group stands somewhere behind the one before, and behind the line before `first`. Some are parted by lines of the body."""
    at = first
    for group in groups:
        at = rng.randint(at, len(body))
        for line in group:
            body.insert(at, line)
            at += 1
            if rng.random() < 0.1:
                at = rng.randint(at, len(body))


def put_stops(rng, block, chance):
    if rng.random() < chance:
        for _ in range(rng.choice([1, 1, 1, 2, 3])):
            block.body.insert(rng.randint(0, len(block.body)), "stop")


def put_traces(rng, blocks, frame):
    """Children stop, and who forks them waits for most, looks at them and lets them go on."""
    if rng.random() < 0.25:
        return
    named = {block.name: block for block in blocks}
    for block in blocks:
        if block.kind != "kthread":
            put_stops(rng, block, 0.85 if block.kind == "child" else 0.08)
    for block in blocks:
        for child in [line.split(" ")[1] for line in block.body if line.startswith("fork ")]:
            if rng.random() < 0.85:
                put_in_order(rng, block.body, block.body.index(f"fork {child}") + 1, draw_session(rng, frame, named[child], block.tag()))
            if block.handler is not None and rng.random() < 0.25:
                # (to a parent that may wait by then)
                named[child].body.insert(rng.randint(0, len(named[child].body)), f"kill {block.name} {rng.choice([10, 12])}")


def places_of(lines, *words):
    return [i for i, line in enumerate(lines) if line.split(" ")[0] in words]


def change_buffer(rng, lines):
    """A place or a number of bytes near the end of the buffer, or a count near its limit."""
    at = rng.choice(places_of(lines, "bpeek", "bpoke", "setregs", "get", "set", "yield") or [len(lines) - 1])
    if lines[at].startswith("setregs "):
        lines[at] = " ".join(lines[at].split(" ")[:3] + [rng.choice(["16384", "16385", "4294967295", "4294967296", "0", "00", "512 "])])
        return
    place, size = rng.choice([16320, 16321, 16383, 16384, 16388, 4294967295, 0]), rng.choice([0, 1, 63, 64, 65])
    lines[at] = rng.choice([f"bpeek {place} {size}", f"bpoke {place} {'00' * size}", f"bpoke 0 {'ab' * size}", "bpoke 0 0", "bpeek 0"])


def change_order(rng, lines):
    """A line of a tracer that is taken away, doubled, moved, or of another child."""
    traces, waits = places_of(lines, "wait", *BEHIND_A_WAIT), places_of(lines, "wait", "fork")
    names = [lines[at].split(" ")[1] for at in places_of(lines, "task", "child", "kthread") if " " in lines[at]] + ["zz"]
    inside = [at + 1 for at in places_of(lines, "task", "child", "handler", *BEHIND_A_WAIT)]
    kind = rng.randrange(6)
    if kind == 0 and waits:
        del lines[rng.choice(waits)]
    elif kind == 1 and traces:
        lines.insert(rng.choice(traces), rng.choice([lines[at] for at in traces]))
    elif kind == 2 and traces:
        words = lines[rng.choice(traces)].split(" ")
        words[1:2] = [rng.choice(names)]
        lines[rng.choice(traces)] = " ".join(words)
    elif kind == 3 and places_of(lines, "cont"):
        at = rng.choice(places_of(lines, "cont"))
        lines.insert(at, rng.choice([lines[at], lines[at].replace("cont", "wait")]))
    elif kind == 4 and traces:
        line = lines.pop(rng.choice(traces))
        lines.insert(rng.choice(inside or [len(lines)]), line)
    elif inside:
        name = rng.choice(names)
        lines.insert(rng.choice(inside), rng.choice([
            "stop", f"wait {name}", f"getregs {name} fx", f"getregs {name} xstate", f"setregs {name} fx 512", f"setregs {name} xstate 16385",
            f"cont {name}", f"getregs {name} all", f"getregs {name}", f"setregs {name} fx", f"setregs {name} 512", "stop now", "wait", "cont A",
            f"wait {name} 1", f"getregs {name} fx 512", f"setregs {name} fx 0512", "getregs",
        ]))
