#!/usr/bin/env python3
"""What the benchmarks share: the time, peak memory and instructions of a run, and how figures are spelled.

    bench/measuring.py

Prints the peak memory of a program that does nothing, as it is measured here. It is about 1 MB.
"""
import os
import re
import subprocess
import sys
import tempfile
import time

ROUNDS = 5
STARTER = "/usr/bin/time"


def run(words, source, target):
    """The seconds and the peak memory in bytes of one run of a program, and its exit status.

    A child of Python's own is charged with the memory that Python has while it starts the child. So a small program
    starts it, and tells what the child alone had at most.
    """
    with tempfile.NamedTemporaryFile(prefix="rambo-peak-") as told, open(source, "rb") as reader, open(target, "wb") as writer:
        streams = [(os.POSIX_SPAWN_DUP2, reader.fileno(), 0), (os.POSIX_SPAWN_DUP2, writer.fileno(), 1)]
        start = time.perf_counter()
        child = os.posix_spawn(STARTER, [STARTER, "-q", "-f", "%M", "-o", told.name] + words, os.environ, file_actions=streams)
        _, status = os.waitpid(child, 0)
        spent = time.perf_counter() - start
        # nothing is told where that program was itself cut off, or found no room for its file
        words_told = told.read().split()
        return spent, int(words_told[-1]) * 1024 if words_told else None, os.waitstatus_to_exitcode(status)


def best(programs, words, source, targets, statuses=(0,)):
    """The least seconds of five runs, and the greatest peak memory, of each program; they run in turn."""
    if not os.path.exists(STARTER):
        raise SystemExit("%s, which tells a program's memory, isn't there" % STARTER)
    figures = [(float("inf"), 0)] * len(programs)
    for _round in range(ROUNDS):
        for place, program in enumerate(programs):
            spent, peak, status = run([program] + words, source, targets[place])
            if status not in statuses or peak is None:
                raise SystemExit("%s %s ended with status %d%s" % (program, " ".join(words), status, "" if peak else ", and no memory was told"))
            figures[place] = (min(figures[place][0], spent), max(figures[place][1], peak))
    return figures


def instructions(programs, words, source, targets, statuses=(0,)):
    """The instructions of one run of each program.

    valgrind prints a count of a run that was cut off, too, so the status is looked at first.
    """
    figures = []
    for program, target in zip(programs, targets):
        with open(source, "rb") as reader, open(target, "wb") as writer:
            ran = subprocess.run(
                ["valgrind", "--tool=callgrind", "--callgrind-out-file=/dev/null", program] + words,
                stdin=reader, stdout=writer, stderr=subprocess.PIPE, text=True, check=False)
        if ran.returncode not in statuses:
            raise SystemExit("%s %s ended with status %d under valgrind" % (program, " ".join(words), ran.returncode))
        figures.append(int(re.search(r"refs:\s*([\d,]+)", ran.stderr).group(1).replace(",", "")))
    return figures


def ratio(figures):
    """The first figure to the second, or nothing where there is only one."""
    return figures[0] / figures[1] if len(figures) == 2 else None


def table(heads, rows):
    """A table in Markdown: all columns but the first stand to the right."""
    lines = [heads, ["---"] + ["---:"] * (len(heads) - 1)] + rows
    return ["| %s |" % " | ".join(line) for line in lines]


def megabytes(size):
    return "%.1f" % (size / 2**20)


def main():
    nothing = "/bin/true"
    spent, peak, _ = run([nothing], os.devnull, os.devnull)
    print("%s: %.4f s, %s MB" % (nothing, spent, megabytes(peak)))
    return 0


if __name__ == "__main__":
    sys.exit(main())
