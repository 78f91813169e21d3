#!/usr/bin/env python3
"""Times `rambo replay` and `rambo check` on long scripts, side by side with another program that takes the same words.

    bench/compare.py RAMBO [OTHER]
    bench/compare.py --count RAMBO [OTHER]
    bench/compare.py --write RAMBO OTHER

Prints for each script, and for the outcome that RAMBO gives of it, the best of five times and the peak memory of each
program, the ratios of the two, and how both grow from a script of half the steps. `check --why` is printed beside RAMBO's own
`check`. With --count it prints instructions in place of times, on scripts of an eighth of the length, by valgrind: these are
the same on a busy machine. It asserts nothing.

With --write it does both, and clients.py's part as well, and writes the tables into docs/BENCHMARKS.md and the picture
docs/img/benchmarks.svg.
"""
import os
import platform
import re
import shutil
import sys
import tempfile

import bars
import clients
import scripts
from measuring import best, instructions, megabytes, ratio, run, table

DOCS = os.path.join(os.path.dirname(os.path.abspath(__file__)), "..", "docs")
# Kind of script, steps, keys, and the ratios of time and of memory that replay is to come down to.
SCRIPTS = [
    ("calls", 400000, 16, 1.5, 1.5),
    ("calls", 400000, 1000, 1.5, 1.5),
    ("letters", 1000000, 1, 1.5, 1.5),
    ("letters", 1000000, 16, 1.5, 1.5),
    ("letters", 1000000, 100, 1.5, 1.5),
    ("letters", 1000000, 1000, 1.5, 1.5),
    ("joined", 1000000, 16, 2.0, 1.5),
    ("founders", 1000000, 16, 2.0, 1.5),
    ("values", 200000, 16, 1.2, 1.3),
    ("moves", 1000000, 16, 1.5, 1.5),
]
CHECK_AIMS = (1.5, 1.5)
# The document has the instructions of these kinds.
COUNTED_KINDS = ("calls", "letters")
# Its other is `check` of the same program; it is printed alone.
WHY = "check --why"
# The second is that of a check which says no of some key.
STATUSES = (0, 3)


class Row:
    """One word of the programs on one script: its figures of the whole script, and of half of it."""

    def __init__(self, word, kind, steps, keys, aims):
        self.word, self.kind, self.steps, self.keys, self.aims = word, kind, steps, keys, aims

    def name(self):
        return "%s, %s steps, %s %s" % (self.kind, "{:,}".format(self.steps), "{:,}".format(self.keys), "key" if self.keys == 1 else "keys")


def lines_of(path):
    with open(path, "rb") as reader:
        return sum(1 for _ in reader)


def compared(programs, part, measure, shown):
    """Rows with figures of scripts of this part of their lengths and of half of that, in the order of SCRIPTS."""
    rows = []
    with tempfile.TemporaryDirectory(prefix="rambo-bench-") as folder:
        outcomes = [os.path.join(folder, "outcome %d" % place) for place in range(len(programs))]
        verdicts = [os.path.join(folder, "verdicts %d" % place) for place in range(len(programs))]
        script = os.path.join(folder, "script")
        for kind, steps, keys, *aims in SCRIPTS:
            steps = steps // part
            row_of = {word: Row(word, kind, steps, keys, of) for word, of in (("replay", tuple(aims)), ("check", CHECK_AIMS), (WHY, None))}
            for length in (steps // 2, steps):
                with open(script, "w", encoding="ascii") as writer:
                    writer.write(scripts.script(kind, length, keys))
                for word, row in row_of.items():
                    source, targets = (script, outcomes) if word == "replay" else (outcomes[0], verdicts)
                    if word == WHY:
                        figures = measure(programs[:1], word.split(), source, targets) + figures[:1]
                    else:
                        figures = measure(programs, [word], source, targets)
                    if length == steps:
                        row.figures, row.lines = figures, lines_of(source)
                        print("%-11s %-38s %s" % (word, row.name(), shown(row)), flush=True)
                    else:
                        row.half = figures
            rows.extend(row_of.values())
    return rows


def timed(programs):
    def shown(row):
        text = "; ".join("%.3f s %9d lines/s %6s MB" % (spent, row.lines / spent, megabytes(peak)) for spent, peak in row.figures)
        if len(row.figures) == 2:
            text += "; time x%.2f, memory x%.2f" % (ratio([spent for spent, _ in row.figures]), ratio([peak for _, peak in row.figures]))
        (spent, peak), (half_spent, half_peak) = row.figures[0], row.half[0]
        return text + "; time x%.2f, memory x%.2f of half the steps" % (spent / half_spent, peak / half_peak)

    return compared(programs, 1, lambda *run_of: best(*run_of, STATUSES), shown)


def counted(programs):
    def shown(row):
        text = "; ".join("%8.1f million, %5d a line" % (figure / 1e6, figure / row.lines) for figure in row.figures)
        if len(row.figures) == 2:
            text += "; x%.2f" % ratio(row.figures)
        return text + "; x%.2f of half the steps" % (row.figures[0] / row.half[0])

    return compared(programs, 8, lambda *run_of: instructions(*run_of, STATUSES), shown)


def in_order(rows):
    return [row for word in ("replay", "check") for row in rows if row.word == word]


def first_of_kinds(rows):
    """Those rows that the document has: of each kind of script the first number of keys."""
    firsts = {}
    for row in in_order(rows):
        firsts.setdefault((row.word, row.kind), row)
    return list(firsts.values())


def machine():
    """What the figures were taken on."""
    with open("/proc/cpuinfo", encoding="ascii", errors="replace") as reader:
        found = re.search(r"^model name\s*:\s*(.*)$", reader.read(), re.MULTILINE)
    model = found.group(1) if found else platform.machine()
    with open("/proc/meminfo", encoding="ascii") as reader:
        memory = int(re.search(r"MemTotal:\s*(\d+)", reader.read()).group(1)) / 2**20
    _, nothing, _ = run(["/bin/true"], os.devnull, os.devnull)
    load = os.getloadavg()[0]
    rough = ", so its times are rough, and only memory and instructions are to be relied on" if load > 0.5 else ""
    return ("Taken on %d virtual processors (%s) with %d GB, %s %s; other work there had a load of %.1f when it began%s. "
            "A program that does nothing (`/bin/true`) is measured with %s MB." % (
                os.cpu_count(), model, round(memory), platform.system(), platform.release().split("-")[0], load, rough, megabytes(nothing)))


def time_table(rows):
    heads = ["Work", "Time", "of the other", "ratio", "aim", "Memory", "of the other", "ratio", "aim"]
    return table(heads, [
        ["`%s` %s" % (row.word, row.name())]
        + ["%.3f s" % row.figures[0][0], "%.3f s" % row.figures[1][0], "**%.2f**" % (row.figures[0][0] / row.figures[1][0]), "%.1f" % row.aims[0]]
        + [megabytes(row.figures[0][1]) + " MB", megabytes(row.figures[1][1]) + " MB", "**%.2f**" % (row.figures[0][1] / row.figures[1][1]), "%.1f" % row.aims[1]]
        for row in first_of_kinds(rows)])


def count_table(rows):
    return table(["Work", "Instructions a line", "of the other", "ratio"], [
        ["`%s` %s" % (row.word, row.name())] + ["{:,}".format(figure // row.lines) for figure in row.figures] + [
         "**%.2f**" % ratio(row.figures)]
        for row in first_of_kinds(rows) if row.kind in COUNTED_KINDS])


def around_figures(path):
    """What stands before and behind the figures of the document."""
    with open(path, encoding="utf-8") as reader:
        before, rest = reader.read().split("<!-- figures -->\n")
    return before, rest.split("<!-- end of figures -->\n")[1]


def write(programs):
    """The figures into the document between its two marks, of clients the first and the last; and those of all scripts into the
    picture."""
    path = os.path.join(DOCS, "BENCHMARKS.md")
    # before the long part, so that a document without the marks is told at once
    around_figures(path)
    taken_on = machine()
    rows = timed(programs)
    lines = [taken_on, "", "## Replay and check", ""] + time_table(rows)
    lines += ["", "![The ratios as bars: of time and of memory, for each script.](img/benchmarks.svg)"]
    clients_rows = clients.timed(programs)
    lines += ["", "## Commands of a client", "", clients.ABOUT, ""] + clients.time_table(clients_rows[::len(clients_rows) - 1])
    if shutil.which("valgrind"):
        lines += ["", "## Instructions", "", "Scripts of an eighth of the length; the same on a busy machine:", ""] + count_table(counted(programs))
        lines += ["", "The client's commands, %s of them:" % "{:,}".format(clients.COUNTED), ""] + clients.count_table(clients.counted(programs)[::len(clients_rows) - 1])
    before, after = around_figures(path)
    with open(path, "w", encoding="utf-8") as writer:
        writer.write(before + "<!-- figures -->\n" + "\n".join(lines) + "\n<!-- end of figures -->\n" + after)
    with open(os.path.join(DOCS, "img", "benchmarks.svg"), "w", encoding="utf-8") as writer:
        writer.write(bars.drawn([
            ("%s %s" % (row.word, row.name()), [(ratio([figure[part] for figure in row.figures]), row.aims[part]) for part in range(2)])
            for row in in_order(rows)]))


def main():
    words = sys.argv[1:]
    option = words.pop(0) if words and words[0] in ("--count", "--write") else None
    if len(words) not in ((2,) if option == "--write" else (1, 2)) or any(word.startswith("-") for word in words):
        sys.stderr.write(__doc__)
        return 2
    if option == "--write":
        write(words)
    else:
        (counted if option else timed)(words)
    return 0


if __name__ == "__main__":
    sys.exit(main())
