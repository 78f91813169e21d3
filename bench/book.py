#!/usr/bin/env python3
"""What a step of a server's book takes: its instructions beside those of a replay, and its bytes.

    bench/book.py RAMBO [--commands 2000] [--steps 1000000]

A client sends SETs and GETs in turn, over 16 keys, to `rambo serve` with founders 1, 2 and 3, each when it has the reply to
the one before. That takes some eleven steps a command, and an idle call at times.

- Once so many commands are served under valgrind. Then `rambo replay` takes the trace, under valgrind too. Printed are the
  instructions a step that the server spends in its two halves, with all that they call, those that the replay spends in its world,
  and their ratio; and which functions they go to, of either.
- Then, without valgrind, so many commands that a book of --steps steps is nearly full. Printed is how far the resident
  memory grew, a step of the trace.
"""
import argparse
import collections
import os
import re
import socket
import subprocess
import sys
import tempfile

KEYS = 16
STEPS_A_COMMAND = 12
PATIENCE = 60
# The two halves of a step. First ones are also made of steps that are refused, as an advance whose quorum hasn't replied.
READY, ENTER = r"rambo_book::first_half::ready\b", r"rambo_book::committing::enter\b"
HALVES = "%s|%s" % (READY, ENTER)
# Those of the replay's world. A quiet step has no function of its own there, and isn't counted.
WORLD = r"rambo_world::state::State::(advance|call|deliver|send)\b"


def spelled(*words):
    return b"".join([b"*%d\r\n" % len(words)] + [b"$%d\r\n%s\r\n" % (len(word), word) for word in words])


def commands(count):
    """SETs and GETs in turn, each kind over all keys in a circle."""
    for turn in range(count):
        key = b"%08x" % (turn // 2 % KEYS)
        yield spelled(b"GET", key) if turn % 2 else spelled(b"SET", key, b"%08x" % turn)


def resident(process):
    """The bytes that a process has resident."""
    with open("/proc/%d/status" % process) as reader:
        return int(re.search(r"VmRSS:\s*(\d+) kB", reader.read()).group(1)) * 1024


def serve(words, count, trace):
    """Has a server answer so many commands and end. Returns how far its resident memory grew with them."""
    with open(trace, "wb") as writer, subprocess.Popen(words, stdin=subprocess.DEVNULL, stdout=writer, stderr=subprocess.PIPE) as child:
        port = next(int(line.split()[1]) for line in child.stderr if line.startswith(b"listening"))
        with socket.create_connection(("127.0.0.1", port), timeout=PATIENCE) as client:
            client.setsockopt(socket.IPPROTO_TCP, socket.TCP_NODELAY, 1)
            reader = client.makefile("rb")
            before = resident(child.pid)
            for command in commands(count):
                client.sendall(command)
                reply = reader.readline()
                if reply.startswith(b"$") and reply != b"$-1\r\n":
                    reply = reader.readline()
                if reply.startswith(b"-"):
                    sys.exit("a command was answered %r" % reply)
            grown = resident(child.pid) - before
            client.sendall(spelled(b"RAMBO", b"SHUTDOWN"))
            reader.readline()
        child.communicate(timeout=PATIENCE)
        if child.returncode != 0:
            sys.exit("%s ended with status %d" % (words, child.returncode))
    return grown


def steps_of(trace):
    """All lines but the first two are steps."""
    with open(trace, "rb") as reader:
        return sum(1 for _ in reader) - 2


class Profile:
    """What callgrind tells of a run: of each function how often it was called, and what it cost with all that it calls; and
    of each pair the cost of the second where the first called it."""

    def __init__(self, path):
        names, self.calls, self.costs, self.own = {}, collections.Counter(), collections.Counter(), collections.Counter()
        self.within = collections.Counter()

        def name_of(word):
            number, _, name = word.partition(" ")
            return names.setdefault(number, name) if name else names[number]

        caller = callee = None
        called = False
        for line in open(path, errors="replace"):
            kind, _, rest = line.rstrip("\n").partition("=")
            if kind == "fn":
                caller = name_of(rest)
            elif kind == "cfn":
                callee = name_of(rest)
            elif kind == "calls":
                self.calls[callee] += int(rest.split()[0])
                called = True
            elif line[:1] in "+-*0123456789" and caller:
                cost = int(line.split()[-1])
                if called:
                    self.costs[callee] += cost
                    self.within[caller, callee] += cost
                else:
                    self.own[caller] += cost
                called = False

    def found(self, pattern):
        return [name for name in self.costs if re.search(pattern, name)]

    def total(self, pattern, counts):
        return sum(counts[name] for name in self.found(pattern))

    def parts(self, pattern):
        """What the functions of a pattern spend themselves, and in each function that they call, most first."""
        parts = collections.Counter()
        for name in self.found(pattern):
            parts["itself"] += self.own[name]
            for (caller, callee), cost in self.within.items():
                if caller == name:
                    parts[re.sub(r"::<#\w+>|'\d+$", "", callee)] += cost
        return parts.most_common(9)


def profiled(words, folder, **streams):
    path = os.path.join(folder, "callgrind")
    return ["valgrind", "--tool=callgrind", "--callgrind-out-file=" + path, *words], path


def count_instructions(program, count, folder):
    trace = os.path.join(folder, "trace")
    words, path = profiled([program, "serve", "--clients", "1"], folder)
    serve(words, count, trace)
    steps, served = steps_of(trace), Profile(path)
    words, path = profiled([program, "replay"], folder)
    with open(trace, "rb") as reader:
        subprocess.run(words, stdin=reader, stdout=subprocess.DEVNULL, stderr=subprocess.DEVNULL, check=True)
    replayed = Profile(path)
    entered, asked, taken = served.total(ENTER, served.calls), served.total(READY, served.calls), replayed.total(WORLD, replayed.calls)
    if entered != steps:
        sys.exit("%d steps, but %d calls of %s" % (steps, entered, ENTER))
    halves, world = served.total(HALVES, served.costs) / steps, replayed.total(WORLD, replayed.costs) / taken
    print("%d steps: %.0f instructions a step, %.0f a step of the replay's world, ratio %.2f" % (steps, halves, world, halves / world))
    print("    of %d steps that were asked for, %d were refused" % (asked, asked - steps))
    for what, profile, pattern in (("halves", served, HALVES), ("world", replayed, WORLD)):
        for name, cost in profile.parts(pattern):
            print("    %-6s %6.0f  %s" % (what, cost / steps, name))


def measure_memory(program, most, folder):
    trace = os.path.join(folder, "trace")
    grown = serve([program, "serve", "--clients", "1", "--steps", str(most)], most // STEPS_A_COMMAND - 1, trace)
    steps = steps_of(trace)
    print("%d steps: %.0f bytes a step, %.1f MB" % (steps, grown / steps, grown / 2**20))


def main():
    parser = argparse.ArgumentParser(description=__doc__, formatter_class=argparse.RawDescriptionHelpFormatter)
    parser.add_argument("program")
    parser.add_argument("--commands", type=int, default=2000)
    parser.add_argument("--steps", type=int, default=1000000)
    options = parser.parse_args()
    with tempfile.TemporaryDirectory(prefix="book-") as folder:
        count_instructions(options.program, options.commands, folder)
        measure_memory(options.program, options.steps, folder)


if __name__ == "__main__":
    main()
