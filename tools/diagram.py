"""A run as a space-time diagram: what a script and its outcome tell, drawn on a canvas (`svg.py`, `page.py`)."""
import html

COLOURS = ["#4878a8", "#c07838", "#5a9a5a", "#a85a78", "#7a6ab0", "#998a30", "#3a9a9a", "#a06050"]
BLACK, GREY, RED = "#222", "#555", "#c02020"


def lines_of(text):
    """The words of each line of a text, without the line that tells its version."""
    lines = [line.split(" ") for line in text.splitlines()]
    return lines[1:] if lines[:1] == [["rambo", "2"]] else lines


def shown(word):
    """Bytes as a reader would write them: text where it is some."""
    data = b"" if word == "-" else bytes.fromhex(word)
    text = data.decode("ascii", "replace")
    return text if text and text.isprintable() and len(text) <= 8 else ("''" if not data else word[:8])


def members(config):
    """The members of a configuration, whose weights stand behind colons."""
    return [int(member.split(":")[0]) for member in config.split(",")]


class Outcome:
    """What an outcome tells: refusals by their steps, and the other lines in the order of the steps."""

    def __init__(self, lines):
        self.refused = {int(line[1]): int(line[2]) for line in lines if line[0] == "refused"}
        self.lines = [line for line in lines if line[0] in ("call", "answer", "decided", "collected")]
        self.at = 0

    def next(self, word):
        if self.at < len(self.lines) and self.lines[self.at][0] == word:
            self.at += 1
            return self.lines[self.at - 1]
        return None


class Node:
    """What the picture follows of a node: what it holds of each key, and its configurations by place."""

    def __init__(self, founders):
        self.status = "idle"
        self.tags = {}
        self.floor, self.configs = 0, [founders]
        self.bands = {0: (0, founders)}
        self.calls = 0
        self.stopped = None
        # The place that an attempt or a collection is for, and whether its first quorum was there.
        self.begun = {}

    def merge(self, letter, at, drawn):
        if self.status == "joining":
            self.status = "active"
        for key, tag in letter["tags"].items():
            if tag > self.tags.get(key, (0, 0)):
                self.tags[key] = tag
        for offset, config in enumerate(letter["configs"]):
            if letter["floor"] + offset == self.end():
                self.learn(config, at)
        if letter["floor"] > self.floor:
            if letter["floor"] >= self.end():
                self.configs = []
                for offset, config in enumerate(letter["configs"]):
                    self.configs.append(config)
                    self.bands[letter["floor"] + offset] = (at, config)
                for place in [place for place in self.bands if place < letter["floor"]]:
                    drawn(place, *self.bands.pop(place), at)
                self.floor = letter["floor"]
            while self.floor < letter["floor"]:
                self.remove(at, drawn)

    def end(self):
        """The first place that it doesn't know."""
        return self.floor + len(self.configs)

    def learn(self, config, at):
        self.bands[self.end()] = (at, config)
        self.configs.append(config)

    def remove(self, at, drawn):
        drawn(self.floor, *self.bands.pop(self.floor), at)
        self.floor += 1
        self.configs = self.configs[1:]


class Diagram:
    """A run, drawn step by step."""

    def __init__(self, script, outcome, canvas):
        founders, self.steps = script[0][1], script[1:]
        self.outcome = Outcome(outcome)
        self.canvas = canvas
        names = set(members(founders))
        for step in self.steps:
            names |= {int(word.split(".")[0]) for word in step[1:2] if step[0] != "deliver"}
            if step[0] == "send":
                names.add(int(step[2]))
        names = sorted(name for name in names if 1 <= name <= 64)
        for name in names:
            canvas.row(name, "node %d" % name)
        self.nodes = {name: Node(founders) for name in names}
        for name in members(founders):
            self.nodes[name].status = "active"
        self.letters, self.calls = [], {}

    def band(self, name):
        def drawn(place, since, config, until):
            self.canvas.band(name, place % 4, since, until, "%d: {%s}" % (place, config), COLOURS[place % len(COLOURS)])
        return drawn

    def dot(self, at, name, words="", colour=BLACK):
        self.canvas.dot(name, at, colour)
        if words:
            self.canvas.label(name, at, words, 9, GREY)

    def take(self, at, step):
        word, canvas = step[0], self.canvas
        if word == "deliver":
            number = int(step[1])
            letter = self.letters[number - 1] if 1 <= number <= len(self.letters) else None
            name = letter["to"] if letter else next(iter(self.nodes))
        else:
            name = int(step[1].split(".")[0])
        if at in self.outcome.refused:
            if name in self.nodes:
                canvas.cross(name, at)
                canvas.label(name, at, str(self.outcome.refused[at]), 9, RED)
            return
        node = self.nodes[name]
        if word == "join":
            node.status = "joining"
            node.bands = {place: (at, config) for place, (_, config) in node.bands.items()}
            canvas.label(name, at, "join")
        elif word == "stop":
            node.status, node.stopped = "stopped", at
            canvas.stop(name, at)
            canvas.label(name, at, "stop")
        elif word in ("get", "set"):
            self.outcome.next("call")
            node.calls += 1
            self.calls["%d.%d" % (name, node.calls)] = {"op": word, "key": step[2], "stage": 0}
            words = "get %s" % shown(step[2]) if word == "get" else "set %s=%s" % (shown(step[2]), shown(step[3]))
            canvas.triangle(name, at, True)
            canvas.label(name, at, words)
        elif word == "send":
            self.letters.append({"at": at, "from": name, "to": int(step[2]), "came": 0,
                                 "joins": node.status == "joining", "tags": dict(node.tags), "floor": node.floor,
                                 "configs": list(node.configs)})
        elif word == "deliver":
            canvas.arrow(letter["from"], letter["at"], letter["to"], at, letter["came"] > 0)
            letter["came"] += 1
            if not letter["joins"]:
                node.merge(letter, at, self.band(name))
        elif word == "advance":
            self.advance(at, name, node, self.calls[step[1]])
        elif word == "again":
            self.dot(at, name, "again")
        elif word == "recon":
            node.begun["decided"] = [node.end(), False]
            self.dot(at, name, "recon {%s}" % step[2], COLOURS[0])
        elif word == "rebid":
            node.begun["decided"][1] = False
            self.dot(at, name, "rebid", COLOURS[0])
        elif word == "collect":
            node.begun["collected"] = [node.floor, False]
            self.dot(at, name, "collect", COLOURS[1])
        elif word == "advance-recon":
            self.ends(at, name, node, "decided", COLOURS[0])
        elif word == "advance-collect":
            self.ends(at, name, node, "collected", COLOURS[1])

    def advance(self, at, name, node, call):
        """A call's query was met, or its propagation, with which it is answered."""
        if call["stage"] == 0:
            sequence, writer = node.tags.get(call["key"], (0, 0))
            if call["op"] == "set":
                sequence, writer = sequence + 1, name
                node.tags[call["key"]] = (sequence, writer)
            call["stage"] = 1
            self.dot(at, name, "(%d,%d)" % (sequence, writer))
            return
        answer = self.outcome.next("answer")
        self.canvas.triangle(name, at, False)
        self.canvas.label(name, at, {"ok": "ok", "nil": "nil"}.get(answer[2]) or shown(answer[3]))

    def ends(self, at, name, node, word, colour):
        """The attempt or the collection of a node goes on, or ends: at its second quorum, or where another settled it."""
        place, asked = node.begun[word]
        settled = place < (node.end() if word == "decided" else node.floor)
        if not asked and not settled:
            node.begun[word][1] = True
            self.dot(at, name, "", colour)
            return
        line = self.outcome.next(word)
        if word == "decided" and not settled:
            node.learn(line[3], at)
        if word == "collected" and not settled:
            node.remove(at, self.band(name))
        self.dot(at, name, "%s %d" % (word, place), colour)

    def draw(self):
        for at, step in enumerate(self.steps, 1):
            self.take(at, step)
        end = len(self.steps) + 1
        for name, node in self.nodes.items():
            for place in sorted(node.bands):
                self.band(name)(place, *node.bands[place], node.stopped or end)
            self.canvas.life(name, node.stopped or end)
        for letter in self.letters:
            if not letter["came"]:
                self.canvas.lost(letter["from"], letter["at"], letter["to"])
        self.canvas.end(end)
