"""A script and a history of it, and which bytes the replies may show where each task writes only bytes that name it, for cases/random."""
from drawing import BLOCKS, INITIAL, TAGS, places_of


class Story:
    """A script and a history of it: each block's kind, number and parent, and the events with their lines of the script."""

    def __init__(self, text, history):
        self.lines = text.decode("latin-1").split("\n")
        heads = [self.lines[at].split(" ") for at in places_of(self.lines, *BLOCKS)]
        self.kind = {name: kind for kind, name in heads}
        self.number = {name: at for at, (_, name) in enumerate(heads)}
        self.events = [line.split(" ") for line in history.decode("latin-1").split("\n")[:-1]]
        forks = [event for event in self.events if event[0] == "outer" and self.line(event).startswith("fork ")]
        self.parent = {self.line(event).split(" ")[1]: event[1] for event in forks}

    def line(self, event):
        return self.lines[int(event[2]) - 1]

    def kind_of(self, event):
        """Its first word; of an outer event the line's own word, `kill ` with a space apart from a Kill."""
        if event[0] != "outer":
            return event[0]
        word = self.line(event).split(" ")[0]
        return "kill " if word == "kill" else word


class Shown:
    """The bytes that may stand in each task's registers, in its memory of a frame and in its buffer, as far as a history has gone."""

    def __init__(self, story):
        self.story, self.files, self.frames, self.buffers = story, {}, {}, {}
        for name in story.kind:
            self.files[name], self.frames[name], self.buffers[name] = self.base(name), self.base(name), self.base(name)

    def base(self, name):
        return {TAGS[self.story.number[name]]} | INITIAL

    def pass_by(self, event):
        """What an event lets a task have of others, and of its own earlier registers."""
        name, words = event[1], self.story.line(event).split(" ") if event[0] in ("local", "outer") else []
        if event[0] == "start" and event[4] != "-":
            self.frames[name], self.files[name] = self.files[name], self.base(name)
        elif words[:1] == ["sigreturn"]:
            self.files[name] = self.frames[name] | self.base(name)
        elif words[:1] == ["fork"]:
            self.files[words[1]] = self.base(words[1]) | self.files[name]
        elif words[:1] == ["getregs"] and event[3].startswith("+"):
            self.buffers[name] = self.buffers[name] | self.files[words[1]]
        elif words[:1] == ["setregs"] and event[3].startswith("+"):
            left = self.files[words[1]] if words[2] == "fx" else set()
            self.files[words[1]] = left | self.buffers[name] | self.base(words[1])

    def allowed(self, event):
        """The bytes that the reply of a local line may show."""
        where = {"peek": self.frames, "bpeek": self.buffers}.get(self.story.line(event).split(" ")[0], self.files)
        return where[event[1]]


def shown(story, tells):
    """The replies that show what they mustn't; it's counted how many show an own byte, and one of another task."""
    found, may = [], Shown(story)
    for event in story.events:
        if event[0] == "local" and event[3].startswith("="):
            word, reply = story.line(event).split(" ")[0], set(bytes.fromhex(event[3][1:]))
            own = {TAGS[story.number[event[1]]]}
            tells[f"replies of {word}"] += 1
            tells[f"replies of {word} with an own byte"] += bool(reply & own)
            tells[f"replies of {word} with a byte of another task"] += bool(reply - own - INITIAL)
            if reply - may.allowed(event):
                found.append(f"{' '.join(event)} shows {bytes(sorted(reply - may.allowed(event))).hex()}")
        may.pass_by(event)
    return found
