"""The calls of one key in an outcome, as bars over time, with their numbers in the order that is judged."""
import re

from diagram import shown

SET, GET, OPEN, RED = "#4878a8", "#5a9a5a", "#9aa7b4", "#c02020"


class Missing(Exception):
    """There is no such key in the outcome."""


class Call:
    def __init__(self, name, line, words):
        self.name, self.since, self.words = name, line, words
        self.client = int(name.split(".")[0])
        self.until, self.answer, self.places, self.lane, self.red = None, None, [], 0, False

    def told(self):
        answer = "answered %s, line %d" % (self.answer, self.until) if self.answer else "never answered"
        places = ", ".join(map(str, self.places)) if self.places else "none"
        return "%s %s, line %d\n%s\nplace in the order: %s" % (self.name, self.words, self.since, answer, places)

    def shown(self):
        answer = " %s" % self.answer if self.answer and self.answer != "ok" else ""
        return "%s: %s%s" % (",".join(map(str, self.places)) or "-", self.words, answer)

    def colour(self):
        if self.red:
            return RED
        return OPEN if self.answer is None else SET if self.words.startswith("set") else GET


def key_in(lines, key):
    """The key's sign in the outcome: it is given as that, or as text."""
    keys = {line[1] for line in lines if line[0] == "sequence" and len(line) > 1}
    keys |= {line[3] for line in lines if line[0] == "call" and len(line) > 3}
    for sign in (key, key.encode().hex()):
        if sign in keys:
            return sign
    some = ", ".join(sorted(keys)[:5])
    raise Missing("no call is of the key %s%s" % (key, "; there are %s" % some if some else ""))


def calls_of(lines, key):
    """The calls of a key by their names, with the numbers of their lines from 1."""
    calls = {}
    for number, line in enumerate(lines, 1):
        if line[0] == "call" and line[3] == key:
            words = "get" if line[2] == "get" else "set %s" % shown(line[4])
            calls[line[1]] = Call(line[1], number, words)
        elif line[0] == "answer" and line[1] in calls:
            calls[line[1]].until = number
            calls[line[1]].answer = shown(line[3]) if line[2] == "value" else line[2]
        elif line[0] == "sequence" and line[1] == key:
            for place, name in enumerate(line[2:], 1):
                if name in calls:
                    calls[name].places.append(place)
    return calls


def verdict_on(verdicts, key):
    """What is said of the key, and the line of the witness, if there is one."""
    for at, line in enumerate(verdicts):
        if line.split(" ")[1:2] == [key] and line.split(" ")[0] in ("yes", "no"):
            behind = verdicts[at + 1] if at + 1 < len(verdicts) else ""
            return line, behind.strip() if behind.startswith("  ") else ""
    return "", ""


def draw(lines, verdicts, key, canvas):
    """Draws the calls of the key, a row for each client, from the first line about it to the last."""
    calls = calls_of(lines, key)
    said, witness = verdict_on(verdicts, key)
    for name in re.findall(r"\b\d+\.\d+\b", witness):
        if name in calls:
            calls[name].red = True
    moments = sorted({call.since for call in calls.values()} | {call.until for call in calls.values() if call.until})
    at = {line: place for place, line in enumerate(moments)}
    end = len(moments)
    lanes = {}
    # the calls of one client may overlap: each stands in the first lane that is free
    for call in sorted(calls.values(), key=lambda call: call.since):
        free = lanes.setdefault(call.client, [])
        until = at[call.until] if call.until else end
        call.lane = next((lane for lane, last in enumerate(free) if last < at[call.since]), len(free))
        free[call.lane:call.lane + 1] = [until]
    for client in sorted(lanes):
        canvas.row(client, "client %d" % client, len(lanes[client]))
    for call in calls.values():
        since, until = at[call.since], at[call.until] if call.until else end
        canvas.bar(call.client, call.lane, since, until, call.shown(), call.colour(), call.told())
        if call.red:
            canvas.red(call.client, since, until)
    canvas.numbers = moments + [len(lines)]
    canvas.told = "\n".join(line for line in (said, witness) if line)
    canvas.end(end)
