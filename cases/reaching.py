"""Tells to which situations a history comes, for cases/random."""
import collections

from drawing import BLOCKS


class Situations:
    """The situations of a history so far."""

    def __init__(self, story):
        self.story, self.at = story, set()

    def where(self, holds, situation, otherwise=None):
        if holds or otherwise:
            self.at.add(situation if holds else otherwise)


class Reach(Situations):
    """The situations of forks and of PKRU. Of each block: the lines of its turn, how its line before ended, its last processor, whose PKRU
    it has where one was set, and whether a kernel thread has had that processor since."""

    def __init__(self, story):
        super().__init__(story)
        self.turn, self.before, self.last, self.pkru, self.thread = collections.defaultdict(list), {}, {}, {}, {}
        for event in story.events:
            {"start": self.start, "fork": self.fork, "local": self.line}.get(story.kind_of(event), lambda event, name: None)(event, event[1])
        self.at |= {"a child never born" for name, kind in story.kind.items() if kind == "child" and name not in story.parent}
        if len({self.last[name] for name in story.parent if name in self.last}) > 1:
            self.at.add("children on several processors")

    def start(self, event, name):
        cpu, how, parent = event[2], event[3], self.story.parent.get(name)
        if how == "kern":
            self.thread.update({other: True for other, its in self.last.items() if its == cpu})
            return
        if self.before.get(name) == "fork":
            self.where(how == "skip", "a parent skipped after its fork", "a parent loaded after its fork")
        if parent and name not in self.last:
            self.where(cpu == self.last[parent], "a child on its parent's processor", "a child on another processor")
        self.where(parent and self.last.get(name, cpu) != cpu, "a child that moves")
        self.where(parent and how == "skip", "a child skipped")
        self.where(how == "skip" and self.thread.get(name) and name in self.pkru, "a skip behind a kernel thread, PKRU set")
        self.turn[name], self.last[name], self.thread[name] = [], cpu, False

    def fork(self, event, name):
        lines, at, turn = self.story.lines, int(event[2]) - 1, self.turn[name]
        self.where(lines[at - 1].split(" ")[0] in BLOCKS, "a fork as the first line", "a fork behind a line")
        self.where(lines[at + 1] == "end", "a fork as the last line", "a fork before a line")
        self.where(turn, "a fork behind lines of its turn", "a fork alone in its turn")
        self.where(not turn and self.before.get(name) == "line", "a fork behind a full quantum")
        self.where(not turn and self.before.get(name) == "fork", "a fork behind a fork")
        self.where(turn and turn[-1].startswith("ksec"), "a fork behind a section of its turn")
        self.where(name in self.story.parent, "a fork in a child")
        self.where(any(line.startswith("set pkru") for line in turn), "a fork in the turn of a set of PKRU")
        if name in self.pkru:
            self.at.add("a fork behind a set of PKRU")
            self.pkru[lines[at].split(" ")[1]] = "a parent's"
        self.before[name] = "fork"

    def line(self, event, name):
        line = self.story.line(event)
        self.turn[name].append(line)
        if line.startswith("set pkru"):
            self.where(name in self.story.parent.values(), "a set of PKRU in a parent")
            self.pkru[name] = "its own"
        self.where(line == "get pkru" and self.pkru.get(name) == "a parent's", "a get of a parent's PKRU")
        self.before[name] = "yield" if line == "yield" else "line"


class Signals(Situations):
    """The situations of signals and frames. Of each block: its processor, the lines of its turn, whether a handler runs, on which processor it
    began, whether it has poked its frame, and what is pending."""

    def __init__(self, story):
        super().__init__(story)
        self.cpu, self.turn, self.handler, self.poked, self.signals, self.ended = {}, {}, {}, set(), collections.defaultdict(set), set()
        steps = {"start": self.start, "kill ": self.send, "fork": self.fork, "local": self.line, "kill": self.refuse, "end": self.end}
        for event in story.events:
            steps.get(story.kind_of(event), lambda event, name: None)(event, event[1])

    def start(self, event, name):
        signal, handler = event[4], self.handler.get(name)
        self.where(signal != "-", f"a delivery with {event[3]}")
        self.where(signal != "-" and name not in self.cpu, "a delivery at the first Start")
        self.where(signal != "-" and len(self.signals[name]) > 1, "a delivery of the lowest of several")
        self.where(signal == "-" and self.signals[name], "a Start in a handler with a signal pending")
        self.where(handler and event[2] != handler, "a Start in a handler on another processor")
        self.where(handler and event[3] == "skip", "a skip in a handler", handler and "a load in a handler")
        self.cpu[name], self.turn[name] = event[2], []
        if signal != "-":
            self.signals[name].discard(signal)
            self.handler[name] = event[2]
            self.poked.discard(name)

    def send(self, event, name):
        _, target, signal = self.story.line(event).split(" ")
        if event[3] == "!3":
            self.where(target in self.ended, "a kill of an ended block", "a kill before the birth")
            return
        self.where(target == name, "a kill of itself", "a kill of another")
        self.where(self.story.parent.get(name) == target, "a kill of its parent")
        self.where(self.story.parent.get(target) == name, "a kill of its child")
        self.where(self.handler.get(target), "a kill while a handler runs")
        self.where(signal in self.signals[target], "a signal that is pending already")
        self.signals[target].add(signal)

    def fork(self, event, name):
        self.where(self.signals[name], "a fork with a signal pending")

    def line(self, event, name):
        words = self.story.line(event).split(" ")
        self.turn[name].append(words[0])
        if not self.handler.get(name):
            return
        if words[0] in ("ksec", "yield"):
            self.at.add(f"{words[0]} in a handler")
        elif words[0] == "poke":
            self.poked.add(name)
        elif words[0] == "sigreturn":
            self.where(name in self.poked, f"{event[3]} after a poke", f"{event[3]} of an untouched frame")
            self.where(self.turn[name][-2:-1] == ["ksec"], "a return behind a section")
            self.handler[name] = None

    def refuse(self, event, name):
        self.where(self.signals[name], "a refused return with a signal pending")
        self.where(len(self.turn[name]) > 0, "a refused return behind lines of its turn", "a refused return alone in its turn")
        self.at.add(f"Kill {event[2]} {event[3]}")
        self.ended.add(name)

    def end(self, event, name):
        self.where(self.signals[name], "an end with a signal pending")
        self.ended.add(name)


class Tracing(Situations):
    """The situations of tracers and stopped children. Of each block: its stage and, while it waits, for whom; on which processor its latest turn
    was and whether it ended in a section; which sets came since; whether it was let go; which lines it waits and continues with. Of each processor: the user task
    that was started last, unless a section followed."""

    def __init__(self, story):
        super().__init__(story)
        self.stage, self.waits, self.cpu, self.section, self.held = {}, {}, {}, {}, {}
        self.sets, self.freed, self.blocked, self.conts = collections.defaultdict(set), set(), {}, collections.Counter()
        steps = {"start": self.start, "local": self.local, "stop": self.stop, "wait": self.wait, "getregs": self.read, "setregs": self.write,
                 "cont": self.go_on, "kill ": self.send, "fork": self.fork, "grow": self.grow, "end": self.end, "kill": self.end}
        for event in story.events:
            steps[story.kind_of(event)](event, event[1])

    def start(self, event, name):
        _, _, cpu, how, signal = event
        kept = self.cpu.get(name) == cpu and self.held.get(cpu) == name and not self.section.get(name)
        self.where(kept and "accepted" in self.sets[name], "a load behind an accepted set, where a skip would have come")
        self.where(how == "skip" and self.sets[name], "a skip behind refused sets")
        self.where(signal != "-" and name in self.freed, "a delivery to a child that goes on")
        self.where(signal != "-" and name in self.blocked, "a delivery before a wait is tried again")
        self.where(name in self.freed and how != "kern" and self.cpu.get(name, cpu) != cpu, "a child goes on on another processor")
        self.stage[name], self.cpu[name], self.section[name] = "turn", cpu, False
        self.sets[name].clear()
        self.freed.discard(name)
        if how != "kern":
            self.held[cpu] = name

    def local(self, event, name):
        line = self.story.line(event)
        self.section[name] = line.startswith("ksec")
        if self.section[name]:
            self.held[self.cpu[name]] = None
        self.where(line == "bpeek 512 2" and event[3] != "=0000", "marks that are read")

    def grow(self, event, name):
        self.section[name] = True

    def fork(self, event, name):
        self.stage[self.story.line(event).split(" ")[1]] = "ready"

    def wake(self, name, what):
        parent = self.story.parent.get(name)
        self.where(self.stage.get(parent) == "waiting" and self.waits[parent] != name, f"{what} while the parent waits for another child")
        if self.stage.get(parent) == "waiting" and self.waits[parent] == name:
            self.stage[parent] = "ready"
            self.at.add(f"{what} that makes the parent ready")

    def stop(self, event, name):
        parent = self.story.parent.get(name)
        if event[3] == "-":
            self.where(parent, "a stop behind the parent's end", "a stop of a root task")
            return
        self.at.add("a stop")
        self.where(parent in self.story.parent, "a stop of a child's child")
        self.where(self.stage.get(parent) == "stopped", "a stop of a child whose parent is stopped")
        self.where(self.stage.get(parent) == "turn", "a stop while the parent has a turn on another processor")
        self.where(name in self.story.parent.values(), "a stop of a task with children")
        self.wake(name, "a stop")
        self.stage[name] = "stopped"

    def wait(self, event, name):
        child = self.story.line(event).split(" ")[1]
        self.at.add(f"a wait answers {event[3]}")
        if event[3] == "blocked":
            self.stage[name], self.waits[name], self.blocked[name] = "waiting", child, child
        elif self.blocked.pop(name, None):
            self.at.add(f"a wait that was blocked answers {event[3]}")

    def read(self, event, name):
        _, child, which = self.story.line(event).split(" ")
        self.at.add(f"getregs {which} answers " + ("+" if event[3].startswith("+") else event[3]))
        self.where(self.stage.get(child) == "stopped" and child not in self.cpu, "getregs before the first turn")

    def write(self, event, name):
        _, child, which, _ = self.story.line(event).split(" ")
        self.at.add(f"setregs {which} answers " + ("+" if event[3].startswith("+") else event[3]))
        self.sets[child].add("accepted" if event[3].startswith("+") else "refused")

    def go_on(self, event, name):
        child = self.story.line(event).split(" ")[1]
        self.at.add(f"cont answers {event[3]}")
        if event[3] == "+0":
            self.conts[child] += 1
            self.where(self.conts[child] > 1, "a cont behind another")
            self.stage[child] = "ready"
            self.freed.add(child)

    def send(self, event, name):
        stage = self.stage.get(self.story.line(event).split(" ")[1])
        self.where(stage in ("stopped", "waiting"), f"a signal to a {stage} task")

    def end(self, event, name):
        what = "an end" if event[0] == "end" else "a kill"
        stopped = [child for child, parent in self.story.parent.items() if parent == name and self.stage.get(child) == "stopped"]
        self.where(stopped, f"{what} that frees a stopped child")
        self.where(len(stopped) > 1, "several stopped children freed at once")
        self.where(stopped and self.waits.get(self.story.parent.get(name)) == name and self.stage.get(self.story.parent.get(name)) == "waiting",
                   "a waiting parent and a stopped child freed at once")
        self.wake(name, what)
        self.freed.update(stopped)
        self.stage.update({child: "ready" for child in stopped})
        self.stage[name] = "ended"


class Tiles(Situations):
    """The situations of tiles. Which blocks have a Large area, and which had one; of each block its processor, the lines of its turn, whether a handler runs,
    and of a block that has just grown on which processor that was; of each processor the user task that was started last."""

    def __init__(self, story):
        super().__init__(story)
        self.large, self.ended, self.cpu, self.turn, self.handler, self.grown, self.held = set(), set(), {}, {}, set(), {}, {}
        steps = {"start": self.start, "local": self.local, "fork": self.fork, "getregs": self.read, "setregs": self.write, "grow": self.grow,
                 "kill": self.kill, "end": self.end}
        for event in story.events:
            steps.get(story.kind_of(event), lambda event, name: None)(event, event[1])

    def start(self, event, name):
        _, _, cpu, how, signal = event
        self.where(self.grown.get(name) == cpu and self.held.get(cpu) == name, f"a {how} behind a growth, on the same processor")
        self.where(self.grown.get(name, cpu) != cpu, "a Start behind a growth, on another processor")
        self.where(name in self.large and signal != "-", "a delivery to a task with a Large area")
        self.where(name in self.large and how == "skip", "a skip of a task with a Large area")
        self.where(name in self.large and self.cpu.get(name, cpu) != cpu, "a task with a Large area that moves")
        self.cpu[name], self.turn[name] = cpu, []
        self.grown.pop(name, None)
        if signal != "-":
            self.handler.add(name)
        if how != "kern":
            self.held[cpu] = name

    def local(self, event, name):
        words = self.story.line(event).split(" ")
        self.turn[name].append(words[0])
        if words[0] == "perm":
            self.at.add(f"perm answers {event[3]}")
        elif words[0] == "tilerelease":
            self.where(name in self.large, "a release with a Large area", "a release without one")
        elif words[0] in ("get", "set") and words[1].startswith(("tmm", "tilecfg")):
            self.at.add(f"{words[0]} of {words[1][:3]}" + ("" if name in self.large else " without a Large area"))
        elif words[0] == "sigreturn":
            self.where(name in self.large, f"{event[3]} with a Large area")
            self.handler.discard(name)

    def fork(self, event, name):
        self.where(name in self.large, "a fork of a task with a Large area")

    def read(self, event, name):
        child = self.story.line(event).split(" ")[1]
        self.where(child in self.large and event[3].startswith("+"), "registers of a child with a Large area are read")

    def write(self, event, name):
        child = self.story.line(event).split(" ")[1]
        self.where(child in self.large and event[3].startswith("+"), "registers of a child with a Large area are set")

    def before(self, what, name):
        """How a turn went up to its end by a line that traps."""
        turn = self.turn[name]
        self.where(not turn, f"{what} alone in its turn", f"{what} behind lines of its turn")
        self.where(turn[-1:] == ["ksec"], f"{what} behind a section of its turn")
        self.where(name in self.handler, f"{what} in a handler")

    def grow(self, event, name):
        self.before("a growth", name)
        self.where(self.ended & self.large, "a growth behind the end of a task with a Large area")
        self.where(name in self.story.parent, "a growth of a child")
        self.large.add(name)
        self.grown[name] = self.cpu[name]

    def kill(self, event, name):
        if event[3] in ("permission", "area"):
            self.before(f"Kill {event[2]} {event[3]}", name)
        self.where(name in self.large, "a kill of a task with a Large area")
        self.ended.add(name)

    def end(self, event, name):
        self.ended.add(name)


SITUATIONS = (Reach, Signals, Tracing, Tiles)
