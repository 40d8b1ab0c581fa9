"""Draws scripts, for cases/random."""
import random
import re

from framing import Frame, draw_peek, draw_poke
from tiling import change_tiles, draw_tiles, put_leave, rows_of
from tracing import change_buffer, change_order, draw_bpeek, draw_bpoke, draw_session, places_of, put_traces

# The registers by their component, but those of tiles: names and bytes.
REGISTERS = {
    0: [("fcw", 2), ("fsw", 2), ("ftw", 1), ("fop", 2), ("fip", 8), ("fdp", 8)] + [(f"st{i}", 10) for i in range(8)],
    1: [("mxcsr", 4)] + [(f"xmm{i}", 16) for i in range(16)],
    2: [(f"ymmh{i}", 16) for i in range(16)],
    5: [(f"k{i}", 8) for i in range(8)],
    6: [(f"zmmh{i}", 32) for i in range(16)],
    7: [(f"zmm{i}", 64) for i in range(16, 32)],
    9: [("pkru", 4)],
}
# The extended components of `amx`: number, size, flags.
EXTENDED = [(2, 256, 0), (5, 64, 0), (6, 512, 0), (7, 1024, 0), (9, 8, 0), (17, 64, 2), (18, 8192, 6)]
# Bytes of initial registers (FCW, MXCSR, PKRU, and zero), which name no block; and two for each of 64 blocks.
INITIAL = set(bytes.fromhex("007f03801f5455"))
TAGS = [byte for byte in range(256) if byte not in INITIAL]


class Block:
    """A block of a script that is drawn. With a number it writes only bytes that name it. Where it has a handler, that is a list of lines."""

    def __init__(self, kind, name, number=None):
        self.kind, self.name, self.body, self.handler, self.number = kind, name, [], None, number

    def tag(self):
        return None if self.number is None else TAGS[self.number]

    def value(self, rng, name, size):
        if self.number is None:
            return draw_bytes(rng, name, size)
        return (bytes([TAGS[self.number]]) * size)[:2 if name == "mxcsr" else size].ljust(size, b"\0").hex()

    def section(self, rng):
        return f"ksec {rng.randrange(256) if self.number is None else TAGS[64 + self.number]:02x}"

    def lines(self):
        handler = [] if self.handler is None else ["handler"] + self.handler + ["sigreturn"]
        return [f"{self.kind} {self.name}"] + self.body + handler + ["end"]


def draw_machine(rng):
    """Lines of a machine, the places of the components that it has, but TILEDATA's, and that one and where the last one ends."""
    kind = rng.choice(["amx", "amx", "avx", "rows"])
    if kind == "amx":
        return ["machine amx"], {0: 0, 1: 160, 2: 576, 5: 1088, 6: 1152, 7: 1664, 9: 2688, 17: 2752}, (2816, 11008)
    if kind == "avx":
        return ["machine avx"], {0: 0, 1: 160, 2: 576}, (None, 832)
    lines, places, at = ["machine rows", "row 0 160 0 0", "row 1 256 160 0"], {0: 0, 1: 160}, 576
    tiles, data = rng.random() < 0.5, None
    for number, size, flags in EXTENDED:
        if (number in (17, 18) and not tiles) or (number not in (17, 18) and rng.random() < 0.4):
            continue
        at += rng.choice([0, 0, 1, 8, 64])
        lines.append(f"row {number} {size} {at} {flags}")
        if number == 18:
            data = at
        else:
            places[number] = at
        at += size
    return lines, places, (data, at)


def draw_bytes(rng, name, size):
    some = rng.choice(["zeros", "one", "any", "any"])
    data = bytearray(size)
    if some == "one":
        data[rng.randrange(size)] = rng.randrange(256)
    elif some == "any":
        data = bytearray(rng.randrange(256) for _ in range(size))
    if name == "mxcsr":
        data[2:] = b"\0\0"
        if some == "zeros":
            data[:2] = b"\x80\x1f"
    return data.hex()


def draw_line(rng, block, registers, frame, inside=False):
    """A line of a block's body, or inside its handler."""
    kind = rng.random()
    if block.kind == "kthread":
        return "yield" if kind < 0.5 else block.section(rng)
    if rng.random() < (0.4 if inside else 0.04):
        return rng.choice([draw_peek, draw_poke, draw_poke])(rng, frame, block.tag())
    if rng.random() < 0.02:
        return rng.choice([draw_bpeek, draw_bpoke])(rng, frame, block.tag())
    if kind < 0.12:
        return block.section(rng)
    if kind < 0.22:
        return "yield"
    name, size = rng.choice(registers)
    return f"get {name}" if kind < 0.6 else f"set {name} {block.value(rng, name, size)}"


def draw_blocks(rng, registers, frame, secrets):
    many = rng.choice([1, 2, 2, 3, 4, 6, rng.choice([10, 64])])
    kinds = ["task", "task", "kthread"] + rng.choice([[], ["child"], ["child"] * 3])
    blocks = [Block(rng.choice(kinds), rng.choice("abcxyz") + str(number), number if secrets else None) for number in range(many)]
    signals = rng.random() < 0.75
    if all(block.kind == "child" for block in blocks):
        # (nothing runs, which the cases ask)
        rng.choice(blocks).kind = "task"
    for block in blocks:
        for _ in range(rng.choice([0, 1, 2, 3, 5, 9, 33]) if many < 10 else rng.randrange(4)):
            block.body.append(draw_line(rng, block, registers, frame))
        if signals and block.kind != "kthread" and rng.random() < 0.7:
            block.handler = [draw_line(rng, block, registers, frame, True) for _ in range(rng.choice([0, 1, 2, 3, 5, 9]))]
    return blocks


def put_kills(rng, blocks, secrets):
    """Lines that send signals to blocks with a handler, anywhere in a body. A script with too many events is rare, and with secrets there's none."""
    bodies = [block for block in blocks if block.kind != "kthread"]
    targets = [block for block in bodies if block.handler is not None]
    many = rng.choice([1, 2, 3, 6, 12, len(bodies)]) if targets else 0
    if many and not secrets and rng.random() < 0.004:
        rng.choice(targets).handler.extend(["yield"] * rng.choice([1000, 20000]))
        many = rng.choice([4, 30, 600])
    for _ in range(many):
        sender = rng.choice(bodies)
        target = sender if sender in targets and rng.random() < 0.5 else rng.choice(targets)
        line = f"kill {target.name} {rng.choice([10, 12, rng.choice([1, 8, 18, 20, 31])])}"
        at = rng.choice([0, len(sender.body), rng.randint(0, len(sender.body))])
        sender.body[at:at] = [line] * rng.choice([1, 1, 1, 2])


def put_forks(rng, blocks):
    """One line that forks it for each child but some, anywhere in a body: mostly so that it's born."""
    bodies = [block for block in blocks if block.kind != "kthread"]
    born = [block for block in blocks if block.kind == "task"]
    children = [block for block in blocks if block.kind == "child"]
    rng.shuffle(children)
    for child in children:
        if rng.random() < 0.1:
            continue
        forker = rng.choice(born if born and rng.random() < 0.9 else bodies)
        forker.body.insert(rng.choice([0, len(forker.body), rng.randint(0, len(forker.body))]), f"fork {child.name}")
        if forker in born:
            born.append(child)


def draw_pair(rng, registers, frame, secrets):
    """A tracer and its child, and nobody else."""
    tracer, child = Block("task", "t", 0 if secrets else None), Block("child", "c", 1 if secrets else None)
    for _ in range(rng.choice([1, 1, 2])):
        child.body += [draw_line(rng, child, registers, frame) for _ in range(rng.randrange(3))] + ["stop"]
    child.body += [draw_line(rng, child, registers, frame) for _ in range(rng.randrange(4))]
    tracer.body = ["fork c"] + [line for group in draw_session(rng, frame, child, tracer.tag()) for line in group]
    return [tracer, child]


def draw_schedule(rng, cpus):
    """Any lines of a schedule, or whole turns, of which most are on one processor."""
    if rng.random() < 0.7:
        return ["sched " + " ".join(str(rng.randrange(cpus)) for _ in range(rng.choice([1, 2, 3, 7, 20]))) for _ in range(rng.choice([0, 0, 1, 1, 2, 3]))]
    most, turns = rng.randrange(cpus), rng.choice([5, 9, 14, 30])
    return ["sched " + " ".join(f"{cpu} {cpu}" for cpu in [most if rng.random() < 0.75 else rng.randrange(cpus) for _ in range(turns)])]


def keep_apart(rng, tracer):
    """A schedule by which a tracer runs up to its first `cont` on processor 1, and its child before and after that on processor 0, mostly."""
    words = [line.split(" ")[0] for line in tracer.body]
    last = words.index("cont") if "cont" in words else len(words)
    turns = sum(word in ("wait", "getregs", "setregs", "cont") for word in words[:last + 1])
    return ["sched 1 1 0 0" + " 1 1" * max(1, turns + rng.choice([0, 0, 0, 0, 1, -1])) + " 0 0" * rng.choice([1, 2]) + " 1 1" * rng.choice([0, 1, 9])]


def draw_script(rng, secrets):
    """The lines of a script that isn't refused. One in ten is a pair: a tracer and its child alone, on two processors."""
    machine, places, (data, full) = draw_machine(rng)
    all_registers = [it for component in places if component in REGISTERS for it in REGISTERS[component]]
    registers = rng.sample(all_registers, min(len(all_registers), rng.choice([1, 2, 3, 5] if secrets else [2, 3, 5, 40])))
    if secrets and rng.random() < 0.5:
        # (what a section writes)
        registers.append(("xmm0", 16))
    if 9 in places and rng.random() < 0.6:
        registers += REGISTERS[9] * rng.choice([1, 2, len(registers)])
    tiles = data is not None and rng.random() < 0.5
    if tiles:
        registers += draw_tiles(rng) * rng.choice([1, 1, 3])
    pair = rng.random() < 0.1
    cpus = 2 if pair else rng.choice([1, 1, 2, 2, 3, 4, 16, rng.randint(1, 16)])
    quantum = rng.choice([8, 32]) if pair else rng.choice([1, 1, 2, 3, 8, rng.randint(1, 32)])
    lines = ["xstate 1"] + machine + [f"cpus {cpus}", f"quantum {quantum}", f"large {64 if secrets and tiles else rng.choice([0, 1, 1, 2, 64])}"]
    frame = Frame(places, rows_of(registers, data), full, {component for component, its in REGISTERS.items() if set(its) & set(registers)})
    if pair:
        blocks = draw_pair(rng, registers, frame, secrets)
        schedule = keep_apart(rng, blocks[0])
    else:
        blocks, schedule = draw_blocks(rng, registers, frame, secrets), draw_schedule(rng, cpus)
        put_forks(rng, blocks)
        put_traces(rng, blocks, frame)
        put_kills(rng, blocks, secrets)
    if tiles or rng.random() < 0.05:
        put_leave(rng, blocks, secrets)
    return lines + schedule + [line for block in blocks for line in block.lines()]


def change_number(rng, line):
    words = line.split(" ")
    places = [i for i, word in enumerate(words) if word.isdigit()]
    if places:
        words[rng.choice(places)] = rng.choice(["0", "00", "1", "16", "17", "32", "33", "64", "65", "4294967295", "4294967296", "-1", "01", "x"])
    return " ".join(words)


def change_text(rng, line):
    at = rng.randrange(len(line) + 1)
    return rng.choice([
        line[:at] + rng.choice([" ", "\t", "\r", "0", "a", "A", ".", "\xe9", "g"]) + line[at:],
        line[:at] + line[at + 1:],
        line + " ",
        line.upper(),
        line.split(" ")[0],
        line + " 0",
        "",
    ])


BLOCKS = ("task", "child", "kthread")


def change_kill(rng, lines):
    """A `kill` of another block or signal, or one more at any place."""
    kills, blocks, others = places_of(lines, "kill"), places_of(lines, *BLOCKS), places_of(lines, "set", "get", "sigreturn", "end", "fork")
    if not blocks or not others:
        return
    name = rng.choice([lines[rng.choice(blocks)].split(" ")[-1], lines[rng.choice(blocks)].split(" ")[-1], "zz", "A"])
    line = f"kill {name} {rng.choice([10, 10, 12, 0, 9, 19, 31, 32, 4294967295])}"
    if kills and rng.random() < 0.5:
        lines[rng.choice(kills)] = line
    else:
        lines.insert(rng.choice(others), line)


def change_handler(rng, lines):
    """A line `handler` or `sigreturn` more or less, or an outer line in a handler."""
    places, any_place = places_of(lines, "handler", "sigreturn"), rng.randrange(len(lines))
    kind = rng.randrange(4)
    if kind == 0 and places:
        del lines[rng.choice(places)]
    elif kind == 1:
        lines.insert(rng.choice(places + [any_place]), rng.choice(["handler", "sigreturn"]))
    elif kind == 2 and places:
        lines.insert(rng.choice(places) + rng.choice([0, 1]), rng.choice(lines))
    elif places_of(lines, "handler"):
        outer = [lines[at] for at in places_of(lines, "kill", "fork", "stop", "wait", "getregs", "setregs", "cont")]
        outer += ["kill zz 10", "fork zz", "stop", "wait zz", "getregs zz fx", "setregs zz fx 0", "cont zz"]
        lines.insert(rng.choice(places_of(lines, "handler")) + 1, rng.choice(outer))


def change_meaning(rng, lines):
    """A line that is spelled well and may still be refused: a number past its limit, a name twice, a register or bytes that don't fit."""
    kind = rng.choice(["limit"] * 2 + ["fork"] * 3 + ["kill"] * 3 + ["handler"] * 2 + ["frame"] * 2 + ["buffer"] * 2 + ["trace"] * 6 + ["tiles"] * 2 + ["sched", "name", "register", "bytes", "row", "pkru"])
    if kind == "limit":
        at = rng.choice(places_of(lines, "cpus", "quantum", "large") or [0])
        lines[at] = lines[at].split(" ")[0] + " " + rng.choice(["0", "1", "2", "16", "17", "32", "33", "64", "65", "4294967295", "4294967296"])
    elif kind == "sched":
        at = (places_of(lines, "large") or [0])[0] + 1
        lines.insert(at, "sched " + " ".join([str(rng.choice([0, 0, 0, 1, 15, 16]))] * rng.choice([1, 2, 4095, 4096, 4097])))
    elif kind == "name":
        blocks = places_of(lines, *BLOCKS)
        if blocks:
            lines[rng.choice(blocks)] = rng.choice(BLOCKS) + " " + lines[rng.choice(blocks)].split(" ")[-1]
    elif kind == "fork":
        blocks, forks, ends = places_of(lines, *BLOCKS), places_of(lines, "fork"), places_of(lines, "end")
        if blocks and forks and rng.random() < 0.5:
            lines[rng.choice(forks)] = "fork " + rng.choice([lines[rng.choice(blocks)].split(" ")[-1], "zz", lines[rng.choice(forks)].split(" ")[-1] + "0"])
        elif blocks and ends:
            name = lines[rng.choice(rng.choice([it for it in (blocks, forks) if it]))].split(" ")[-1]
            lines.insert(rng.choice(rng.choice([ends, [at + 1 for at in blocks]])), f"fork {name}")
    elif kind == "pkru":
        commands = places_of(lines, "set", "get", "yield", "ksec")
        if commands:
            lines[rng.choice(commands)] = rng.choice(["get pkru", "set pkru 00", "set pkru 54555555", "set pkru 545555", "set pkru 0000000000", "set pkru ffffffff00000000"])
    elif kind == "kill":
        change_kill(rng, lines)
    elif kind == "handler":
        change_handler(rng, lines)
    elif kind == "buffer":
        change_buffer(rng, lines)
    elif kind == "trace":
        change_order(rng, lines)
    elif kind == "tiles":
        change_tiles(rng, lines, places_of(lines, "get", "set", "yield", "ksec", "perm", "tilerelease"))
    elif kind == "frame":
        at = rng.choice(places_of(lines, "peek", "poke", "get", "set", "yield") or [len(lines) - 1])
        place, size = rng.choice([16324, 16325, 16387, 16388, 4294967295]), rng.choice([0, 1, 63, 64, 65])
        lines[at] = rng.choice([f"peek {place} {size}", f"poke {place} {'00' * size}", f"peek {rng.choice([0, 480])} {size}", f"poke 0 {'ab' * size}"])
    elif kind in ("register", "bytes"):
        commands = places_of(lines, "set", "get")
        if commands:
            at = rng.choice(commands)
            words = lines[at].split(" ")
            if kind == "register":
                words[1] = rng.choice(["k0", "k8", "zmmh3", "zmm15", "zmm31", "ymmh15", "xmm16", "xmm00", "st8", "mxcsr", "fcw", "ftw", "eax"])
            elif len(words) == 3:
                words[2] = rng.choice([words[2] + "00", words[2][2:], words[2][:-2], "00" * 64, "ffffffff", "801f0000", "801f0100"])
            lines[at] = " ".join(words)
    else:
        rows = places_of(lines, "row")
        if rows:
            at = rng.choice(rows)
            words = lines[at].split(" ")
            if rng.random() < 0.3:
                # (a place past the end: whether rows may come in another order than their places isn't asked)
                words[3] = rng.choice(["16384", "16385", "4294967295"])
            else:
                words[rng.choice([1, 2, 4])] = rng.choice(["0", "1", "2", "4", "6", "8", "9", "256", "576", "832", "2688", "20"])
            lines[at] = " ".join(words)
    return lines


def pass_another(lines):
    """Whether a row has its place behind all of a later one."""
    rows = [[int(word) for word in line.split(" ")[1:]] for line in lines if re.fullmatch(r"row( [0-9]{1,10}){4}", line)]
    return any(one[2] <= 16384 and one[2] >= other[1] + other[2] for i, one in enumerate(rows) for other in rows[i + 1:])


def change_lines(rng, lines):
    """The lines with one of them changed, left out, doubled, moved or put in."""
    lines, at = list(lines), rng.randrange(len(lines))
    kind = rng.randrange(12)
    if kind < 2:
        old = lines[at]
        lines[at] = change_number(rng, old) if kind == 0 else change_text(rng, old)
        if pass_another(lines):
            # (whether rows may come in another order than their places isn't asked)
            lines[at] = old
    elif kind == 2:
        del lines[at]
    elif kind == 3:
        lines.insert(at, lines[rng.randrange(len(lines))])
    elif kind == 4:
        other = rng.randrange(len(lines))
        lines[at], lines[other] = lines[other], lines[at]
    elif kind == 5:
        lines.insert(at, rng.choice([
            "get xmm16", "get k8", "get zmm15", "set k0 00", "set mxcsr 801f0100", "get ymmh0", "ksec 0102", "ksec a", "ksec AA", "yield",
            "sched", "sched 0", "sched 16", "cpus 0", "cpus 2", "quantum 1", "task a0", "kthread a0", "child a0", "fork a0", "fork", "fork A",
            "child", "get pkru", "end", "row 2 256 576 0", "xstate 1", "handler", "sigreturn", "kill a0 10", "kill a0 9", "kill",
            "peek 0 64", "peek 0 65", "poke 16387 00", "poke 16388 00", "bpeek 0 64", "bpeek 0 65", "bpoke 16383 00", "bpoke 16384 00",
            "perm 18", "tilerelease", "get tmm0.0", "get tilecfg", "stop", "wait a0", "getregs a0 fx", "setregs a0 xstate 16384", "setregs a0 xstate 16385", "cont a0",
        ]))
    else:
        lines = change_meaning(rng, lines)
    return lines


def draw(seed, number, secrets):
    rng = random.Random(f"{seed}/{number}")
    while True:
        lines = draw_script(rng, secrets)
        if not secrets and rng.random() < 1 / 3:
            lines = change_lines(rng, lines)
        text = "\n".join(lines) + ("\n" if secrets or rng.random() < 0.99 else "")
        if places_of(text.split("\n"), "task", "kthread"):
            # (of a script of children alone the other program may never end)
            return text.encode("latin-1")


def draw_runnable(seed, number):
    """A script that isn't refused but for too many events, of 2 to 16 processors and without a schedule, for runs on threads."""
    rng = random.Random(f"{seed}/{number}/runs")
    while True:
        lines = [line for line in draw_script(rng, False) if not line.startswith("sched ")]
        if places_of(lines, "task", "kthread"):
            lines[places_of(lines, "cpus")[0]] = f"cpus {rng.choice([2, 2, 3, 4, 8, 16, rng.randint(2, 16)])}"
            return "".join(line + "\n" for line in lines).encode("latin-1")
